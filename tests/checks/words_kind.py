"""How tools/check runs the check `words`, and what is wrong that this has to find."""
from kinds import Kind, Wrong, changed_copy

REFERENCE, ANSWERS = "docs/reference.md", "docs/answers.md"

KIND = Kind(
    "words_check",
    [],
    [],
    [],
    "the docs have each line, name and advice of station and page, and no others",
    [
        Wrong(
            "answers without a name",
            given={"ANSWERS_PAGE": changed_copy(ANSWERS, '<a id="InUse"></a>`InUse`', "`Taken`")},
            says="`InUse` is told, and has no anchor",
        ),
        Wrong(
            "answers without a line",
            given={"ANSWERS_PAGE": changed_copy(ANSWERS, "`caught up CAMERA`", "`behind CAMERA`")},
            says="`caught up CAMERA` is printed",
        ),
        Wrong(
            "answers without an advice of the page",
            given={"ANSWERS_PAGE": changed_copy(ANSWERS, 'id="advice-slow"', 'id="advice-fast"')},
            says="`advice-slow` is told, and has no anchor",
        ),
        Wrong(
            "answers to which a page links in vain",
            given={"ANSWERS_PAGE": changed_copy(ANSWERS, "## Glossary", "## Words")},
            says="answers.md#glossary is nowhere",
        ),
        Wrong(
            "a reference without a member of JSON",
            given={"REFERENCE_PAGE": changed_copy(REFERENCE, "`micros`, `since` |", "`micros` |")},
            says="the table of lines lacks: .*waited",
        ),
        Wrong(
            "a reference without a word of the file",
            given={"REFERENCE_PAGE": changed_copy(REFERENCE, "| `save_to` |", "| `saves_to` |")},
            says="the file: `save_to` isn't on the page",
        ),
        Wrong(
            "a reference without an order",
            given={"REFERENCE_PAGE": changed_copy(REFERENCE, "| `cancel CAMERA ID` |", "| `c` |")},
            says="orders: `cancel CAMERA ID` isn't",
        ),
    ],
)
