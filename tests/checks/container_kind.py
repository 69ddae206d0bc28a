"""How tools/check runs the check `container`, and what is wrong that this has to find."""
from kinds import Kind, Wrong, changed_copy

KIND = Kind(
    "container_check",
    [],
    None,
    ["LOOP_CLI", "LOOP_STATION", "LAPYREI"],
    "builds the container file with podman, and waits for its health (root; network)",
    [
        Wrong(
            "a container without a page",
            given={
                "CONTAINER": changed_copy(
                    "packaging/container", "as loop_page loop_page", "as loop_page true"
                )
            },
            says="it is healthy: not within",
        ),
        Wrong(
            "an image without a healthcheck",
            given={"CONTAINERFILE": changed_copy("packaging/Containerfile", "HEALTHCHECK", "# ")},
            says="has no healthcheck",
        ),
    ],
)
