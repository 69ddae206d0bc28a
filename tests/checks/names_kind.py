"""How tools/check runs the check `names`, and what is wrong that this has to find."""
from kinds import Kind, Wrong

KIND = Kind(
    "names_check",
    [],
    [],
    [],
    "no two modules of the specs define the same name",
    [
        Wrong(
            "a name that another module has, a wrong way each time",
            words=["--wrong"],
            says="5 of 5 wrong forms are found",
            status=0,
        )
    ],
)
