"""How `wire_count.py` reads what callgrind writes, and in which stage it counts it: on a text and on a program that are made here."""
import os
import shutil
import subprocess
import sys
import tempfile
import unittest

TOP = os.path.dirname(os.path.dirname(os.path.dirname(os.path.realpath(__file__))))
sys.path.insert(0, f"{TOP}/scripts")

import wire_count  # noqa: E402
from wire_count import Profile, by_stage, stage_of  # noqa: E402

# A tree and a chain share a slice's helper, which calls memcpy; what is under no stage is other.
TEXT = """
events: Ir
fn=(1) main
0 10
cfn=(2) mi_tree::change::Tree::insert::<#2a>
calls=2 0
0 160
cfn=(3) mi_chain::look::gap_for::<24'mi_order::stored::Stored>
calls=1 0
0 70

fn=(2)
+5 100
cfn=(4) core::slice::get
calls=4 0
0 60

fn=(3)
0 50
cfn=(4)
calls=1 0
0 20

fn=(4)
0 40
cfn=(5) __memcpy_avx_unaligned
calls=5 0
0 40

fn=(5)
0 40
totals: 240
"""

C = r"""
void tree(int n) __asm__("\"mi_tree::change::Tree::insert\"");
void conflict(int n) __asm__("\"mi_multi::conflicts::unique_refusal\"");
void helper(int n) __asm__("\"core::slice::get\"");
static volatile int sum;
__attribute__((noinline)) void helper(int n) { for (int i = 0; i < n; i++) sum += i; }
__attribute__((noinline)) void tree(int n) { for (int i = 0; i < n; i++) sum += i; helper(n); }
__attribute__((noinline)) void conflict(int n) { tree(n); sum++; }
int main(void) { tree(3000); conflict(1000); return 0; }
"""


def sums(found):
    return {name: round(sum(it.values()), 6) for name, it in found.items() if it and sum(it.values())}


class Stages(unittest.TestCase):
    def test_names(self):
        for name, stage in [
            ("mi_tree::change::Tree::insert::<24'mi_order::stored::Stored>", "trees"),
            ("mi_index::structure::link_tree", "trees"),
            ("mi_index::all::link_all", "container"),
            ("mi_protocol::reply::Reply::text", "reply"),
            ("mi_rows::rows::row_text", "reply"),
            ("mi_protocol::row::bind_row", "binding"),
            ("mi_hub::line::LineBuffer::fill", "reading"),
            ("mi_hub::hub::Hub::feed::<#a3>", "commands"),
            ("mi_multi::conflicts::unique_refusal", "conflicts"),
            ("mi_database::sessions::LinkedSessions::insert::<#2e>", "journal"),
            ("json::parse", "reading"),
            ("__memset_avx2_unaligned_erms", "moves"),
            ("memcpy", "moves"),
            ("_int_malloc", "memory"),
            ("rattle_alloc", "memory"),
            ("core::slice::get::<24'mi_tree::parts::Part>", None),
            ("std_alloc::vec::Vec::push::<24'mi_tree::parts::Part>", None),
        ]:
            self.assertEqual(stage_of(name), stage, name)

    def test_a_profile(self):
        profile = Profile(TEXT)
        self.assertEqual(profile.total, 240)
        self.assertEqual((profile.own["main"], profile.called(("core::slice::get",))), (10, 5))
        self.assertEqual(profile.spent["main", "mi_tree::change::Tree::insert::<#2a>"], 160)

    def test_a_helper_counts_for_its_callers(self):
        """Of the helper's 40 own instructions three quarters are the tree's, who spends 60 of 80 in it."""
        self.assertEqual(sums(by_stage(Profile(TEXT))), {"trees": 130, "chains": 60, "moves": 40, "other": 10})

    def test_what_is_inside_a_conflict(self):
        inside = Profile("fn=(2) mi_tree::change::Tree::insert::<#2a>\n0 30\nfn=(4) core::slice::get\n0 20\n")
        found = sums(by_stage(Profile(TEXT), inside))
        self.assertEqual(found, {"trees": 85, "chains": 55, "moves": 40, "other": 10, "conflicts": 50})

    def test_a_line_is_the_difference_of_two_runs(self):
        once, twice = Profile("fn=(1) a\n0 10\n"), Profile("fn=(1) a\n0 30\nfn=(2) b\n0 6\n")
        self.assertEqual(dict(twice.less(once, 2).own), {"a": 10, "b": 3})


@unittest.skipUnless(shutil.which("valgrind") and shutil.which(os.environ.get("CC", "cc")), "valgrind and a C compiler are needed")
class Callgrind(unittest.TestCase):
    def test_a_program(self):
        folder = tempfile.mkdtemp()
        self.addCleanup(shutil.rmtree, folder)
        with open(f"{folder}/p.c", "w", encoding="ascii") as file:
            file.write(C)
        subprocess.run([os.environ.get("CC", "cc"), "-O1", "-o", f"{folder}/p", f"{folder}/p.c"], check=True)
        counter = wire_count.Counter(f"{folder}/p", folder, 0, 1)
        whole, _ = counter.run([])
        inside, _ = counter.run([], [f"--toggle-collect={wire_count.CONFLICTS}"])
        found = sums(by_stage(whole, inside))
        self.assertEqual(whole.own["mi_tree::change::Tree::insert"] // 4000, whole.own["core::slice::get"] // 4000)
        self.assertTrue(0.3 < found["conflicts"] / found["trees"] < 0.36, found)


if __name__ == "__main__":
    unittest.main()
