#!/usr/bin/env python3
"""What Pacemaker would do by hosts/pacemaker.sh: its commands make a configuration in a file, and Pacemaker's own simulator
says in which order it acts where both hosts come, and where one is lost. `make clients` runs them; where pcs, its
agents or the simulator are missing they are skipped. No cluster, DRBD or fence is there."""
import os
import pathlib
import re
import shutil
import subprocess
import tempfile
import unittest

HERE = pathlib.Path(__file__).resolve().parent
NEEDS = ["pcs", "cibadmin", "crm_verify", "crm_simulate", "fence_ipmilan"]
AGENTS = ["linbit/drbd", "heartbeat/Filesystem", "heartbeat/IPaddr2"]
# In place of pcs: the configuration is a file, and of the unit nothing is known here.
PCS = """#!/bin/sh
case " $* " in *" systemd:ringd "*) set -- "$@" --force ;; esac
exec {pcs} -f {cib} "$@"
"""
# What DRBD's agent would tell of a disk that is up to date on both hosts.
HOST = ('<node id="{number}" uname="{name}"><instance_attributes id="of-{name}"><nvpair id="disk-{name}" name="master-ring-disk" '
        'value="10000"/></instance_attributes></node>')


def is_there() -> bool:
    return all(map(shutil.which, NEEDS)) and all(os.path.exists(f"/usr/lib/ocf/resource.d/{agent}") for agent in AGENTS)


def run(*words: str) -> str:
    """What it prints."""
    return subprocess.run(words, text=True, stdout=subprocess.PIPE, stderr=subprocess.STDOUT, timeout=300, check=True).stdout


def actions(told: str) -> list[str]:
    """What is done, in this order."""
    section = told[told.index("Executing Cluster Transition:"):told.index("Revised Cluster Status:")]
    return [" ".join(re.sub(r"^ *\* (Resource action: )?", "", line).split()) for line in section.splitlines()[1:] if line]


@unittest.skipUnless(is_there(), "for want of pcs with its agents")
class PacemakerTest(unittest.TestCase):
    def setUp(self) -> None:
        folder = tempfile.TemporaryDirectory(prefix="cinoweta-")
        self.addCleanup(folder.cleanup)
        self.folder = pathlib.Path(folder.name)
        self.cib = self.folder / "cib.xml"
        hosts = "".join(HOST.format(number=number, name=name) for number, name in enumerate(("red", "blue"), 1))
        self.cib.write_text(run("cibadmin", "--empty").replace("<nodes/>", f"<nodes>{hosts}</nodes>"), encoding="utf-8")
        shim = self.folder / "pcs"
        shim.write_text(PCS.format(pcs=shutil.which("pcs"), cib=self.cib), encoding="ascii")
        shim.chmod(0o755)
        subprocess.run(["sh", str(HERE / "hosts" / "pacemaker.sh")], env={**os.environ, "PATH": f"{self.folder}:{os.environ['PATH']}"},
                       capture_output=True, timeout=300, check=True)

    def follow(self, told: str, *wanted: str) -> None:
        """These are done one behind the other."""
        done = actions(told)
        for action in wanted:
            self.assertIn(action, done)
        places = [done.index(action) for action in wanted]
        self.assertEqual(places, sorted(places), done)

    def test_a_host_is_fenced_before_the_other_one_begins(self) -> None:
        up, lost = str(self.folder / "up.xml"), str(self.folder / "lost.xml")
        told = run("crm_simulate", "-x", str(self.cib), "-q", "1", "-u", "red", "-u", "blue", "-S", "-O", up)
        host = re.search(r"ring\s+\(systemd:ringd\):\s+Started (red|blue)", told)[1]
        other = {"red": "blue", "blue": "red"}[host]
        disk = next(name for name in actions(told) if re.fullmatch(rf"ring-disk:\d promote on {host}", name))
        self.follow(told, disk, f"ring-mount start on {host}", f"ring-address start on {host}", f"ring start on {host}")
        begun = re.compile(rf"(ring|ring-mount|ring-address) start on {other}|ring-disk:\d promote on {other}")
        self.assertEqual([action for action in actions(told) if begun.fullmatch(action)], [])
        self.assertEqual(subprocess.run(["crm_verify", "-x", up], capture_output=True, timeout=60, check=False).returncode, 0)
        told = run("crm_simulate", "-x", up, "-f", host, "-S", "-O", lost)
        self.follow(told, f"Fencing {host} (reboot)", f"ring-disk promote on {other}", f"ring-mount start on {other}",
                    f"ring-address start on {other}", f"ring start on {other}")


if __name__ == "__main__":
    unittest.main()
