"""Generated tables through both programs, against the reference: verdict, u, witness and translations."""

from means import generate, reference
from means.compare import MAX_DEFINED, compare_translation, expected_verdict, faults_of_verdict, randomness, size_name
from means.programs import Programs
from means.settings import share
from means.transducer import table_file
from means.workers import spread


def pairs_by_subsets(transducer):
    """The useful pairs by their definition, through sets of states: those that one word leads to, and those from which one word leads on."""

    def together(roots, lines):
        """All pairs in a set of states that some word leads to from the roots; the lines are (from, to, input)."""
        def silent(states):
            return frozenset(reference.closure(states, lambda s: [to for source, to, code in lines if source == s and code == 0]))

        def after(states):
            inputs = {code for _, _, code in lines if code}
            return [silent({to for source, to, code in lines if code == read and source in states}) for read in inputs]

        sets = reference.closure([silent(roots)], after)
        return {(p, q) for states in sets for p in states for q in states}

    forward = [(line.source, line.target, line.input) for line in transducer.transitions]
    backward = [(to, source, code) for source, to, code in forward]
    return together(transducer.starts, forward) & together(transducer.finals, backward)


def check_reference(findings, content, transducer, known, expected):
    """The reference against what is known of the table by the way it was made, and on small tables against the definition of u."""
    faults = []
    if reference.read(content) != transducer:
        faults.append("reading the written table does not give that table")
    if known is not None and known == expected.split:
        faults.append(f"functional by construction is {known}, and by residues it is not")
    if transducer.states <= MAX_DEFINED and len(pairs_by_subsets(transducer)) != expected.useful:
        faults.append("u by sets of states is another")
    findings.check_apart("reference itself", faults, content)


def compare_table(programs, findings, kind, index):
    """Verdict, u, witness and translations of one generated table."""
    random = randomness(kind, index)
    transducer, known = generate.KINDS[kind][1](random)
    content = table_file(transducer)
    expected, _ = expected_verdict(content)
    check_reference(findings, content, transducer, known, expected)
    findings.check("verdict and u", faults_of_verdict(programs, findings, content, expected, transducer), content)
    for title in ("all tables", f"tables, {kind}"):
        findings.count(title, "split" if expected.split else "single")
    findings.count("all tables by u", size_name(expected.useful))
    for word in generate.input_words(random, transducer)[:1 if index % 2 else 2]:
        compare_translation(programs, findings, content, word)


def run(findings):
    """Every kind of table, as many as it says."""
    jobs = [(compare_table, kind, index) for kind, (count, _) in generate.KINDS.items() for index in range(share(count))]
    spread(Programs, jobs, findings)
