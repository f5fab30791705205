"""The subcommands of `tools/ssp`: each module is one, but those that `common.SHARED` names. It has

    add_parser(subparsers)  adds the parser of its words, whose name is that of the module, and gives it back
    run(args)               does what it is for, and gives the status; None is 0. It raises common.Told to say in one line what
                            doesn't work

What several share is in `common` (words, errors, XML) and `systems` (systems with their FMUs).
"""
