"""Sockets that are open get the owner, the group and the mode of their units."""

from __future__ import annotations

import grp
import os
import pathlib
import pwd
import socket
import stat
import tempfile
import unittest
from unittest import mock

import suite
from portal_field.settings import socket_owners

SHOWN = """Listen=/run/portal-{0}/socket (Stream)
SocketUser={1}
SocketGroup={2}
SocketMode=0660
"""


class Renewed(unittest.TestCase):
    def setUp(self) -> None:
        folder = tempfile.TemporaryDirectory()
        self.addCleanup(folder.cleanup)
        self.root = pathlib.Path(folder.name)
        self.user, self.group = pwd.getpwuid(os.geteuid()).pw_name, grp.getgrgid(os.getegid()).gr_name

    def put(self, part: str) -> pathlib.Path:
        """A socket that is open to its owner alone."""
        path = self.root / f"run/portal-{part}/socket"
        path.parent.mkdir(parents=True)
        door = socket.socket(socket.AF_UNIX)
        self.addCleanup(door.close)
        door.bind(str(path))
        path.chmod(0o600)
        return path

    def renew(self, *parts: str) -> None:
        """What systemctl shows of these, of which the last one is not open."""
        text = "\n".join(SHOWN.format(part, self.user, self.group) for part in parts)
        asked = mock.Mock(return_value=text)
        socket_owners.renew(asked, self.root)
        asked.assert_called_once_with("Listen,SocketUser,SocketGroup,SocketMode", "portal-*.socket")

    def test_each_socket_gets_what_its_unit_says(self) -> None:
        paths = [self.put(part) for part in ("front", "counter")]
        with mock.patch("shutil.chown") as chown:
            self.renew("front", "counter", "away")
        self.assertEqual(chown.mock_calls, [mock.call(path, self.user, self.group) for path in paths])
        self.assertEqual([stat.S_IMODE(path.stat().st_mode) for path in paths], [0o660] * 2)
        self.assertFalse((self.root / "run/portal-away").exists())

    def test_a_plain_file_stays_as_it_is(self) -> None:
        path = self.root / "run/portal-front/socket"
        path.parent.mkdir(parents=True)
        path.touch(0o600)
        self.renew("front")
        self.assertEqual(stat.S_IMODE(path.stat().st_mode), 0o600)

    def test_no_socket_is_no_fault(self) -> None:
        socket_owners.renew(lambda *_: "", self.root)


if __name__ == "__main__":
    suite.main()
