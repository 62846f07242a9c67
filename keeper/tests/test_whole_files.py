"""What is in a place, and what is put there. `test_install` looks at each moment of an exchange."""

import os
import pathlib
import tempfile
import unittest

from keeper.whole_files import LINK, file_at, has_tree, put_file, put_folder

TREE = {"bin/program": (b"one", 0o755), "page": (b"two", 0o644)}


class WholeFiles(unittest.TestCase):
    def setUp(self) -> None:
        folder = tempfile.TemporaryDirectory()
        self.addCleanup(folder.cleanup)
        self.top = pathlib.Path(folder.name)
        self.place = str(self.top / "new" / "place")

    def test_what_was_put_is_there_with_its_mode_and_nothing_beside_it(self) -> None:
        self.assertIsNone(file_at(self.place))
        for text, mode in ((b"text", 0o640), (b"", 0o755), (b"../elsewhere", LINK)):
            put_file(self.place, text, mode)
            self.assertEqual(file_at(self.place), (text, mode))
            self.assertEqual(os.listdir(self.top / "new"), ["place"])

    def test_a_link_is_replaced_and_not_followed(self) -> None:
        (self.top / "target").write_bytes(b"precious")
        (self.top / "link").symlink_to("target")
        put_file(str(self.top / "link"), b"text", 0o644)
        self.assertEqual((self.top / "target").read_bytes(), b"precious")
        self.assertEqual(file_at(str(self.top / "link")), (b"text", 0o644))

    def test_a_folder_has_the_files_of_its_tree_and_no_other(self) -> None:
        self.assertFalse(has_tree(self.place, TREE))
        put_folder(self.place, TREE)
        self.assertTrue(has_tree(self.place, TREE))
        put_folder(self.place, {"page": (b"three", 0o644)})
        self.assertTrue(has_tree(self.place, {"page": (b"three", 0o644)}))
        self.assertEqual(os.listdir(self.place), ["page"])
        self.assertEqual(os.listdir(self.top / "new"), ["place"])

    def test_another_text_mode_file_or_folder_is_not_the_tree(self) -> None:
        whole = pathlib.Path(self.place)
        for spoil in (lambda: (whole / "page").write_bytes(b"other"), lambda: (whole / "page").chmod(0o600),
                      lambda: (whole / "more").write_bytes(b""), lambda: (whole / "bin").chmod(0o700),
                      lambda: (whole / "page").unlink()):
            put_folder(self.place, TREE)
            spoil()
            self.assertFalse(has_tree(self.place, TREE))


if __name__ == "__main__":
    unittest.main()
