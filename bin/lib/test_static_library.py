"""Tests of what a static library over an ordinary one exports: `python3 bin/lib/test_static_library.py`."""
import sys
import unittest
from importlib.machinery import SourceFileLoader
from importlib.util import module_from_spec, spec_from_loader
from pathlib import Path

sys.dont_write_bytecode = True
LOADER = SourceFileLoader("static_library", str(Path(__file__).resolve().parent / "static_library"))
static_library = module_from_spec(spec_from_loader(LOADER.name, LOADER))
LOADER.exec_module(static_library)

SOURCE = """\
/// Asks.
pub fn ask_part(
    source: &[u8],
    steps: &[Step],
) -> usize
    requires at { at < length source.now
        × IsAscii source.now }
    ensures { result ≡ at }
    requires { IsAscii steps.now }
{
    0
}

fn ask_nothing() {
}
"""


class AnExport(unittest.TestCase):
    def test_it_calls_the_function_under_its_requires(self):
        (found,) = static_library.EXPORTED.finditer(SOURCE)
        made = static_library.exported(found, "a::b").strip().splitlines()
        self.assertEqual(made[:2], [
            "#[unsafe(no_mangle)]", 'pub extern "C" fn ask_part(source: &[u8], steps: &[Step]) -> usize'])
        self.assertEqual([line.strip() for line in made[2:5]], [
            "requires at { at < length source.now", "× IsAscii source.now }", "requires { IsAscii steps.now }"])
        self.assertEqual(made[5:], ["{", "    a::b::ask_part(source, steps)", "}"])

    def test_it_takes_bytes_for_a_view_and_room_for_an_answer(self):
        source = "pub fn ask_text(text: AsciiStr, answer: &mut Answer)\n{\n}\n"
        (found,) = static_library.EXPORTED.finditer(source)
        made = static_library.exported(found, "a::b").strip().splitlines()
        self.assertEqual(made[1:], [
            'pub extern "C" fn ask_text(text: &[u8], room: &mut [u8]) -> usize',
            "    requires text { IsAscii text.now }",
            "{",
            "    let mut answer = Answer::new(room);",
            "    a::b::ask_text(bytes::as_ascii_str_unchecked(text), &mut answer);",
            "    answer.finish()",
            "}"])

    def test_the_processor_is_named_only_if_it_is_given(self):
        for cpu, want in (None, []), ("x86-64-v3", ["--cpu", "x86-64-v3"]):
            command = static_library.static("one", [], {"one": []}, "one.a", cpu)
            self.assertEqual(command[command.index("--toolchain") + 2:command.index("--backend")], want)

    def test_each_call_of_the_exports_is_found(self):
        modules = static_library.exports_of("exports")
        folder = Path(static_library.folder_of("exports")) / "src"
        texts = {it.stem: it.read_text() for it in folder.glob("*.rt")}
        named = {name: text.count("\npub fn ask_") + text.count("\npub fn bench_") for name, text in texts.items()}
        self.assertEqual({name: text.count("no_mangle") for name, text in modules.items()},
                         {name: count for name, count in named.items() if count})


if __name__ == "__main__":
    unittest.main()
