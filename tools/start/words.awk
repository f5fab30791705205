# Whether words are a line of the program's commands, as docs/PROFILE.md has them ("The command line"):
#
#     LC_ALL=C awk -f words.awk -- WORD..
#
# Where they are one, the status is 0 and the numbers of the words that are DIR and FILE are written, counted from 1; else the
# first thing that isn't as it should be, in one line, and the status is 2. That words are UTF-8 is seen elsewhere. The program
# reads its words by itself, and is proved to; this is for the time before it is built, and to say what is wrong. .ci/script
# compares the two.
BEGIN {
    most = "4611686018427387904"
    run = "resolution step stop start workers max-iterations link host"
    options["one"] = options["run"] = run
    options["check"] = "resolution"
    options["trace-check"] = ""
    options["bench"] = "workers"
    options["checkpoint"] = "at " run
    options["resume"] = "workers link host"
    needed["one"] = needed["run"] = "resolution step stop"
    needed["checkpoint"] = "at resolution step stop"
    needed["check"] = "resolution"
    positionals["one"] = positionals["run"] = positionals["checkpoint"] = positionals["check"] = "DIR"
    positionals["trace-check"] = positionals["resume"] = "DIR FILE"
    positionals["bench"] = "SEED N"
    least_of["resolution"] = least_of["step"] = least_of["workers"] = least_of["max-iterations"] = least_of["link"] = "1"
    least_of["stop"] = least_of["start"] = least_of["at"] = least_of["SEED"] = "0"
    least_of["N"] = "1"
    most_of["resolution"] = most_of["step"] = most_of["stop"] = most_of["start"] = most_of["at"] = most
    most_of["workers"] = "64"
    most_of["link"] = "2"
    most_of["SEED"] = "2147483647"
    most_of["N"] = "256"
    most_of["max-iterations"] = "10000"
    is["resolution"] = "counts a second"
    is["step"] = is["stop"] = is["start"] = is["at"] = "counts"
    is["workers"] = "workers"
    is["SEED"] = "what the system is drawn by"
    is["N"] = "components"
    is["max-iterations"] = "instants at a point"
    is["link"] = "the version of the link"

    if (ARGC < 2) fault("a command is missing: one, run, checkpoint, resume, check, trace-check or bench")
    command = ARGV[1]
    if (!(command in options)) fault("`" command "` is no command; there are one, run, checkpoint, resume, check, trace-check and bench")
    read_words()
    count = split(positionals[command], names, " ")
    if (found < count) fault(names[found + 1] " is missing: " about[names[found + 1]])
    count = split(needed[command], names, " ")
    for (i = 1; i <= count; i++) if (!(names[i] in value)) fault("--" names[i] " is missing: " wanted(names[i]))
    if ("start" in value && is_less(value["stop"], value["start"]))
        fault("--start " value["start"] " is above --stop " value["stop"])
    if ("at" in value && "start" in value && is_less(value["at"], value["start"]))
        fault("--at " value["at"] " is below --start " value["start"])
    if ("at" in value && !is_less(value["at"], value["stop"]))
        fault("--at " value["at"] " isn't below --stop " value["stop"])
    print places
    exit 0
}

function fault(text) {
    gsub(/[\001-\037\177]/, "?", text)
    print text
    exit 2
}

# The positionals and options after the command.
function read_words(   i, word, name, at) {
    about["DIR"] = "the folder of the system, or of the FMU"
    about["FILE"] = command == "resume" ? "the file of a checkpoint" : "the file of a trace"
    about["SEED"] = wanted("SEED")
    about["N"] = wanted("N")
    for (i = 2; i < ARGC; i++) {
        word = ARGV[i]
        if (word !~ /^--./) {
            found++
            if (word == "") fault("a word is empty")
            if (word ~ /^-/) fault("`" word "` is no option; a directory of this name is written ./" word)
            if (found > split(positionals[command], names, " ")) fault("`" word "` is a word too many")
            if (names[found] in is) limit(names[found], names[found], word)
            else places = places (places == "" ? "" : " ") i
            continue
        }
        name = substr(word, 3)
        at = index(name, "=")
        word = substr(name, at + 1)
        if (at > 0) name = substr(name, 1, at - 1)
        if (index(" " options[command] " ", " " name " ") == 0 || name == "")
            fault("`--" name "` is no option of `" command "`" \
                (options[command] == "" ? ", which has none" : "; there are --" joined(options[command])))
        if (at == 0) {
            if (++i >= ARGC) fault("--" name " has no value" (name in is ? ": " wanted(name) : ""))
            word = ARGV[i]
        }
        take(name, word)
    }
}

function take(name, word) {
    if (name in value) fault("--" name " stands twice")
    value[name] = word
    if (word == "" || word ~ /^-/) fault("--" name " `" word "`: a value isn't empty and doesn't begin with -")
    if (name in is) limit("--" name, name, word)
}

# A count is within its limits.
function limit(shown, name, word) {
    if (word !~ /^(0|[1-9][0-9]*)$/ || is_less(word, least_of[name]) || is_less(most_of[name], word))
        fault(shown " " word ": " wanted(name) \
            (word ~ /^[0-9]*[.][0-9]+$/ ? "; with --resolution 1000, 10 counts are 0.01 s" : ""))
}

function wanted(name) {
    return "a whole number (" is[name] ") from " least_of[name] " to " (most_of[name] == most ? "2^62" : most_of[name])
}

function joined(names) {
    gsub(/ /, ", --", names)
    return names
}

# Of numbers without leading zeros; the x keeps awk from reading them as its own, which round.
function is_less(a, b) {
    return length(a) != length(b) ? length(a) < length(b) : ("x" a) < ("x" b)
}
