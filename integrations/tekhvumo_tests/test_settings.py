"""What holds for a file: `.tekhvumo.toml`, the machine that the head names, and the command line."""
from __future__ import annotations

from .case import HEAD, SOUND, Case, body

KNITERATE = HEAD.replace("\n;;", "\n;;Machine: Kniterate\n;;", 1)


class SettingsFiles(Case):
    def rules(self, *words: str) -> list[str]:
        return [it["rule"] for it in self.findings("--warn", *words)]

    def test_it_is_found_upward(self) -> None:
        self.write(".tekhvumo.toml", "high = 5\nignore = ['CarrierLeftIn']\n")
        self.write("a folder/below/a.k", body("in 1; tuck + f6 1"))
        self.write("a folder/near/.tekhvumo.toml", "high = 6\n")
        self.write("a folder/near/a.k", body("in 1; tuck + f6 1"))
        self.assertEqual(self.rules("a folder/below/a.k"), ["OffBed"])
        self.assertEqual(self.rules("a folder/near/a.k"), ["CarrierLeftIn"])

    def test_standard_input_lies_where_its_name_says(self) -> None:
        self.write("low/.tekhvumo.toml", "high = 5")
        for name, found in (("low/x.k", ["OffBed"]), ("x.k", []), ("low/absent/x.k", ["OffBed"])):
            given = self.findings("--name", name, "-", given=body("drop f6"))
            self.assertEqual([it["rule"] for it in given], found)

    def test_the_command_line_goes_first(self) -> None:
        self.write(".tekhvumo.toml", "high = 5\nfloat = 3\nignore = ['CarrierLeftIn']\n")
        self.write("a.k", body("in 1; tuck + f1 1; tuck + f6 1"))
        self.assertEqual(self.rules("a.k"), ["OffBed"])
        self.assertEqual(self.rules("--high", "6", "a.k"), ["FloatTooLong"])
        self.assertEqual(self.rules("--high", "6", "--float", "9", "--also", "CarrierLeftIn", "a.k"), ["CarrierLeftIn"])

    def test_machines(self) -> None:
        lines = "in 1\ntuck + f1 1\nmiss + f100 1\ntuck + f253 1\nout 1\n"
        self.write("a.k", KNITERATE + lines)
        self.write("b.k", HEAD + lines)
        self.assertEqual(self.rules("--float", "999", "a.k"), ["FabricTooWide"])
        self.assertEqual(self.rules("--float", "999", "b.k"), [])
        self.write(".tekhvumo.toml", "longest_float = 999\n[machine.Kniterate]\nwidth = 253\nhigh = 252\n")
        self.assertEqual(self.rules("a.k", "b.k"), ["OffBed"])
        self.write("near/.tekhvumo.toml", "longest_float = 999\n[machine.Kniterate]\nwidth = 253\nfloat = 251\n")
        self.write("near/a.k", KNITERATE + lines)
        self.write("near/b.k", HEAD + lines)
        self.assertEqual(self.rules("near/a.k", "near/b.k"), ["FloatTooLong"])

    def test_what_is_no_setting(self) -> None:
        self.write("a.k", SOUND)
        for text, said in (
            ("hig = 5", "hig is no setting; there are low, high, rack, hold, float, longest_float"),
            ("float = 0", "float is 1 to 8192, not 0"),
            ("high = 'x'", "high is a whole number, not 'x'"),
            ("high = 5000", "high is -4096 to 4096, not 5000"),
            ("low = 9\nhigh = 3", "the lowest needle, 9, lies above the highest, 3"),
            ("ignore = ['NoSuch']", "NoSuch is no warning; there are ForgottenCarrier"),
            ("ignore = 'EmptyNeedle'", "ignore is a list of warnings"),
            ("machine = 3", "`machine` is a table"),
            ("high = ", "Invalid value"),
        ):
            self.write(".tekhvumo.toml", text)
            with self.subTest(text):
                ran = self.run_command("tekhvumo", "a.k")
                self.assertEqual((ran.returncode, ran.stdout), (2, b""))
                self.assertIn(said, ran.stderr.decode())

    def test_canonical_texts_and_pictures_have_the_limits(self) -> None:
        self.write(".tekhvumo.toml", "high = 5")
        self.write("a.k", body("drop f06"))
        self.assertEqual(self.tekhvumo("fmt", "--check", "a.k"), (0, ""))
        self.assertIn("OffBed", self.tekhvumo("draw", "a.k")[1])
        self.write("a.k", body("in 1; tuck + f1 1; tuck + f5 1"))
        for words, status in ((["--float", "3"], 1), (["--float", "4"], 0)):
            self.assertEqual(self.tekhvumo("fmt", "--check", *words, "a.k"), (0, ""))
            self.assertEqual(self.tekhvumo("draw", *words, "a.k")[0], 0)
            self.assertEqual("FloatTooLong" in self.told, status == 1)
