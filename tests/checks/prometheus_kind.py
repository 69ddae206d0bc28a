"""How tools/check runs the check `prometheus`, and what is wrong that this has to find."""
import shutil

from kinds import TOP, Kind, Wrong, changed_copy


def changed_alerts(old, new):
    """A copy of the alerts in which something is changed: what makes it, from a folder."""

    def make(folder):
        shutil.copytree(TOP / "examples/prometheus", folder / "prometheus")
        changed = changed_copy("examples/prometheus/alerts.yml", old, new)(folder)
        shutil.move(changed, folder / "prometheus/alerts.yml")
        return str(folder / "prometheus")

    return make


KIND = Kind(
    "prometheus_check",
    [],
    [],
    [],
    "runs the tests of the alerts for Prometheus, and compares their numbers with the page's",
    [
        Wrong(
            "an alert that comes too late",
            given={"PROMETHEUS_FILES": changed_alerts("for: 30s", "for: 30m")},
            says="alertname: StationAway|alertname:StationAway",
        ),
        Wrong(
            "an alert of a number that no page gives",
            given={"PROMETHEUS_FILES": changed_alerts("loop_archive_up", "loop_archive_on")},
            says="no page gives loop_archive_on",
        ),
    ],
)
