"""Small documents for the tests: systems and descriptions."""


def structure(inside, more=""):
    system = f'<System name="s">{inside}</System>{more}'
    return f'<SystemStructureDescription version="1.0" name="s">{system}</SystemStructureDescription>'


def description(variables="", attributes="", more="", identifier="m"):
    head = '<fmiModelDescription fmiVersion="3.0" modelName="m" instantiationToken="t">'
    simulation = f'<CoSimulation modelIdentifier="{identifier}" {attributes}/>'
    return f"{head}{simulation}{more}<ModelVariables>{variables}</ModelVariables></fmiModelDescription>"


def component(name, source="m", inside="", kind=""):
    kind = f' type="application/x-ssp-{kind}"' if kind else ""
    return f'<Component name="{name}" source="{source}"{kind}>{inside}</Component>'


def elements(*inside):
    return f"<Elements>{''.join(inside)}</Elements>"


COUNTER = description(
    '<Int32 name="inc" valueReference="1" causality="parameter" variability="fixed" start="1"><Alias name="pace"/></Int32>'
    '<Int32 name="y" valueReference="2" causality="output"/>',
    'canHandleVariableCommunicationStepSize="true"',
    identifier="counter",
)
