"""Shows that .ci/root_code.py finds a division, a remainder, a float and a table where D's root is worked out."""

from __future__ import annotations

import importlib.util
import subprocess
import sys
import tempfile
import unittest
from pathlib import Path
from types import ModuleType

from test_counting import F64, U32, aggregate, array, assign, call, copy, function, given, items, number, op1, op2, seq

ROOT = Path(__file__).parent.parent
SCRIPT_PATH = ROOT / ".ci" / "root_code.py"
SOURCE = ROOT / "crates" / "root" / "src" / "lib.rt"
SOUND = """
// Half of n / 2, as 0.5 f64, is no code.
ghost use Rattle.std.specs.Prelude.{◌/◌, ◌%◌};

pub extern "C" fn distance_of(n: u32) -> u32
    ensures value { result ≡ (let half = n / 2 in half % 7) }
    ensures { result ≡ distance_of {k = 2} n / 2 }
{
    for i in 0..4 {
        n = n >> 1;
    }
    n
}
"""
LISTING = """
0000000000000000 <distance_of>:
   0:\tmov    %edi,%eax
   2:\tshr    $0x2,%eax
   5:\tpcmpgtd %xmm1,%xmm0
   7:\tcs nopw 0x0(%rax,%rax,1)
   9:\tret
"""
# One of each family that divides, or works with floats.
REFUSED = """
    div idiv divl idivq divss divsd divps divpd vdivsd vdivph fdiv fdivp fidiv addsd subps mulpd vaddpd vfmadd132sd sqrtsd rsqrtss rcpps
    vrcp14ps minsd maxpd ucomisd comiss cmpltsd cvtsi2sd cvttsd2si vcvtdq2pd roundsd haddpd dpps fld fsqrt fiadd fstp pfadd call rep
"""
SOUND_C = "unsigned distance_of(unsigned n) { return n >> 2; }"


def load_script() -> ModuleType:
    spec = importlib.util.spec_from_file_location("root_code", SCRIPT_PATH)
    assert spec is not None and spec.loader is not None
    module = importlib.util.module_from_spec(spec)
    spec.loader.exec_module(module)
    return module


SCRIPT = load_script()


def program(*steps: str, caller: str = "root::distances", other: str = "") -> str:
    """A lookup's distances by a function with these steps, one more function, and a caller."""
    half = assign(0, op2("(shr unsigned)", copy(1), number(1)))
    functions = [
        function("candidates::of_keys", 0, [U32], call(caller, [number(7)], 0)),
        function("root::distances", 1, [U32, U32], half, call("root::distance_of", [copy(0)], 0)),
        function("root::distance_of", 1, [U32, U32, F64, array(U32, 2)], half, *steps),
        function("root::other", 1, [U32, U32], other or half),
    ]
    return f'program {items(*functions)} (fnRef "rt_empty::main")'


class Source(unittest.TestCase):
    def faults_with(self, body: str) -> list[str]:
        """Those of the sound source where half is worked out otherwise."""
        assert "n >> 1" in SOUND
        return SCRIPT.faults_of_source(SOUND.replace("n >> 1", body))

    def test_sound(self) -> None:
        self.assertEqual(SCRIPT.faults_of_source(SOUND), [])

    def test_this_repository(self) -> None:
        text = SOURCE.read_text(encoding="utf-8")
        self.assertEqual(SCRIPT.faults_of_source(text), [])
        self.assertIn("high >> 30", text)
        self.assertEqual(SCRIPT.faults_of_source(text.replace("high >> 30", "high / 1073741824")), ["a division"])

    def test_division(self) -> None:
        self.assertEqual(self.faults_with("n / 2"), ["a division"])

    def test_remainder(self) -> None:
        self.assertEqual(self.faults_with("n - n % 2"), ["a remainder"])

    def test_float(self) -> None:
        for float_form in ("(n as f64) as u32", "(n as f32) as u32", "(0.5) as u32", "(2.) as u32", "1f64 as u32"):
            self.assertEqual(self.faults_with(float_form), ["a float"], float_form)


class Program(unittest.TestCase):
    """What no spelling hides: methods, other names, aliases and literals are gone from MIR."""

    def faults_with(self, *steps: str) -> list[str]:
        return SCRIPT.faults_of_program(program(*steps))

    def test_sound(self) -> None:
        self.assertEqual(self.faults_with(), [])
        self.assertEqual(SCRIPT.faults_of_program(program(other=assign(0, op2("(div unsigned)", copy(1), number(3))))), [])

    def test_division(self) -> None:
        for sign in ("unsigned", "signed"):
            self.assertEqual(self.faults_with(assign(0, op2(f"(div {sign})", copy(1), number(3)))), ["root::distance_of: the operation div"])
            self.assertEqual(self.faults_with(assign(0, op2(f"(rem {sign})", copy(1), number(3)))), ["root::distance_of: the operation rem"])

    def test_division_in_a_branch(self) -> None:
        divides = assign(0, op2("(div unsigned)", copy(1), number(3)))
        self.assertEqual(self.faults_with(f"(block (loop (if true {seq(divides, '(exit 1)')} skip)))"), ["root::distance_of: the operation div"])

    def test_division_further_down(self) -> None:
        divides = assign(0, op2("(div unsigned)", copy(1), number(3)))
        text = program(call("root::other", [copy(1)], 0), other=divides)
        self.assertEqual(SCRIPT.faults_of_program(text), ["root::other: the operation div"])

    def test_float(self) -> None:
        made = assign(2, op1("(intToFloat unsigned 64)", copy(1)))
        self.assertIn("root::distance_of: the operation intToFloat", self.faults_with(made))
        self.assertEqual(self.faults_with(assign(2, given("(float 64 0)"))), ["root::distance_of: a float"])

    def test_table(self) -> None:
        self.assertEqual(self.faults_with(assign(3, aggregate(number(0), number(1)))), ["root::distance_of: the operation aggregate"])
        arms = f"(arm {items('0')} {assign(0, given(number(5)))} (default skip))"
        self.assertEqual(self.faults_with(f"(switch {copy(1)} {arms})"), ["root::distance_of: the form Switch"])

    def test_another_root(self) -> None:
        self.assertEqual(SCRIPT.faults_of_program(program(caller="root::other")), ["candidates::of_keys does not call root::distances"])


class MachineCode(unittest.TestCase):
    def compiled(self, c_source: str) -> list[str]:
        """What is found in the machine code that gcc makes of a C source."""
        with tempfile.TemporaryDirectory() as folder:
            return SCRIPT.faults_of_library(made_of(c_source, Path(folder)))

    def test_sound(self) -> None:
        self.assertEqual(SCRIPT.faults_of_listing(LISTING), [])
        self.assertEqual(self.compiled(SOUND_C), [])

    def test_each_family(self) -> None:
        for name in REFUSED.split():
            self.assertEqual(SCRIPT.faults_of_listing(LISTING.replace("mov ", f"{name} ")), [f"the instruction {name}"])

    def test_division(self) -> None:
        self.assertEqual(self.compiled("unsigned distance_of(unsigned n) { return 65536 / n; }"), ["the instruction div"])
        self.assertIn("the instruction idiv", self.compiled("int distance_of(int n) { return 65536 % n; }"))
        self.assertEqual(SCRIPT.faults_of_listing(LISTING.replace("mov ", "cs div ")), ["the instruction div"])

    def test_division_beside(self) -> None:
        self.assertEqual(self.compiled(f"{SOUND_C} unsigned other(unsigned n) {{ return 7 / n; }}"), ["the instruction div"])

    def test_float(self) -> None:
        found = self.compiled("unsigned distance_of(unsigned n) { return (unsigned)__builtin_sqrt(n * 65536.0); }")
        self.assertIn("the instruction sqrtsd", found)

    def test_code_elsewhere(self) -> None:
        for body in ("half(n) + 1", "half(n)"):
            called = self.compiled(f"unsigned half(unsigned); unsigned distance_of(unsigned n) {{ return {body}; }}")
            self.assertIn("code that is not here, half", called)
        weak = self.compiled("__attribute__((weak)) unsigned half(unsigned); unsigned distance_of(unsigned n) { return half(n); }")
        self.assertIn("code that is not here, half", weak)

    def test_table(self) -> None:
        table = "static const unsigned char t[] = {0, 3, 5, 7, 8}; unsigned distance_of(unsigned n) { return t[n & 3]; }"
        self.assertIn("constants, .rodata", self.compiled(table))

    def test_no_root(self) -> None:
        self.assertEqual(SCRIPT.faults_of_listing(LISTING.replace("distance_of", "distance")), ["no function distance_of"])


def made_of(c_source: str, folder: Path) -> str:
    """The object file that gcc makes."""
    code, made = folder / "code.c", folder / "code.o"
    code.write_text(c_source)
    subprocess.run(["gcc", "-O2", "-c", code, "-o", made], check=True)
    return str(made)


class Process(unittest.TestCase):
    def status(self, source: str = SOUND, mir_text: str = program(), c_source: str = SOUND_C) -> tuple[int, str]:
        """How the script ends, and what it prints, of the end of each line."""
        with tempfile.TemporaryDirectory() as name:
            folder = Path(name)
            (folder / "lib.rt").write_text(source, encoding="utf-8")
            (folder / "program").write_text(mir_text)
            files = [str(folder / "lib.rt"), str(folder / "program"), made_of(c_source, folder)]
            done = subprocess.run([sys.executable, str(SCRIPT_PATH), *files], capture_output=True, text=True)
            return done.returncode, "".join(line.rpartition("/")[2] + "\n" for line in done.stdout.splitlines())

    def test_sound(self) -> None:
        self.assertEqual(self.status(), (0, ""))

    def test_each_part(self) -> None:
        self.assertEqual(self.status(source=SOUND.replace("n >> 1", "n % 2")), (1, "lib.rt: a remainder\n"))
        divides = program(assign(0, op2("(div unsigned)", copy(1), number(3))))
        self.assertEqual(self.status(mir_text=divides), (1, "program: root::distance_of: the operation div\n"))
        self.assertEqual(self.status(c_source="unsigned distance_of(unsigned n) { return 9 / n; }"), (1, "code.o: the instruction div\n"))


if __name__ == "__main__":
    unittest.main()
