#!/usr/bin/env python3
"""The stack of small archives, as `objdump` lists them."""

import unittest

import stack


def listed(**functions):
    """Functions with their instructions; a line `-> NAME` stands for a call of another."""
    text = []
    for name, lines in functions.items():
        name = name.replace("__", "::")
        text.append(f"0000000000000000 <{name}>:")
        for line in lines:
            target = line.removeprefix("-> ")
            if target == name:
                text.append(f"   a:\tcall   0 <{name}>")
            elif target != line:
                text += ["   a:\tcall   f <x+0xf>", f"\t\t\tb: R_X86_64_PLT32\t.text.{target}-0x4"]
            else:
                text.append(f"   a:\t{line}")
    return stack.Archive(stack.functions("\n".join(text)))


class Frames(unittest.TestCase):
    def frame(self, *lines):
        return stack.frame("f", [f"   a:\t{line}" for line in lines])

    def test_what_is_taken_is_counted(self):
        self.assertEqual(self.frame("ret"), 8)
        self.assertEqual(self.frame("push   %rbp", "push   %rbx", "sub    $0x18,%rsp"), 8 + 16 + 24)
        self.assertEqual(self.frame("sub    $0x1000,%rsp", "sub    $0x218,%rsp"), 8 + 0x1218)
        self.assertEqual(self.frame("add    $0xffffffffffffff80,%rsp"), 8 + 128)
        self.assertEqual(self.frame("and    $0xffffffffffffffe0,%rsp"), 8 + 32)

    def test_a_frame_that_is_touched_in_a_loop_is_counted(self):
        loop = ("sub    $0x1000,%rsp", "movq   $0x0,(%rsp)", "cmp    %r11,%rsp", "jne    7 <f+0x7>")
        for place in (("lea    -0x7000(%rsp),%r11",), ("mov    %rsp,%r11", "sub    $0x7000,%r11")):
            self.assertEqual(self.frame(*place, *loop), 8 + 0x7000 + 0x1000)
            self.assertEqual(self.frame(*place, *loop, "sub    $0x238,%rsp"), 8 + 0x8238)

    def test_a_loop_that_is_not_read_is_told(self):
        for place in ((), ("mov    %rsp,%r11",), ("mov    %rsp,%r10", "sub    $0x7000,%r11"), ("sub    $0x7000,%r11", "mov    %rsp,%r11")):
            self.assertRaises(stack.Unknown, self.frame, *place, "sub    $0x1000,%rsp", "cmp    %r11,%rsp")

    def test_going_up_takes_nothing(self):
        lines = ("add    $0x18,%rsp", "pop    %rbx", "mov    %rsp,%rdi", "lea    0x10(%rsp),%rax", "mov    %rax,0x8(%rsp)")
        self.assertEqual(self.frame(*lines, "lea    -0x28(%rbp),%rsp"), 8)

    def test_other_moves_are_not_read(self):
        for line in ("sub    %rax,%rsp", "mov    %rax,%rsp", "lea    -0x8(%rsp),%rsp"):
            self.assertRaises(stack.Unknown, self.frame, line)


    def test_a_frame_that_is_made_over_a_value_is_told(self):
        loop = ("sub    $0x1000,%rsp", "movq   $0x0,(%rsp)", "cmp    %r11,%rsp", "jne    7 <f+0x7>")
        for place in (("lea    -0x7000(%rsp),%r11",), ("mov    %rsp,%r11", "sub    $0x7000,%r11")):
            self.assertRaises(stack.Unknown, self.frame, "mov    %rcx,%r11", "push   %rbp", *place, *loop)
            self.assertEqual(self.frame("push   %rbp", *place, *loop, "mov    %rcx,%r11"), 8 + 8 + 0x8000)


class Chains(unittest.TestCase):
    def size(self, **functions):
        return listed(**functions).deepest("top")[0]

    def test_the_deepest_chain_counts(self):
        self.assertEqual(self.size(top=["-> a", "-> b"], a=["push   %rbx"], b=["-> c"], c=[]), 8 + 8 + 8)

    def test_a_recursion_counts_as_often_as_it_can(self):
        self.assertEqual(self.size(top=["-> core::sort"], core__sort=["-> core::sort"]), 8 + 27 * 8)

    def test_a_ring_counts_with_all_its_functions(self):
        ring = {"ends__f": ["-> ends::g"], "ends__g": ["push   %rbx", "-> ends::f", "-> last"]}
        self.assertEqual(self.size(top=["-> ends::f"], **ring, last=[]), 8 + 10 * (8 + 16) + 8)

    def test_an_unknown_recursion_is_told(self):
        archive = listed(top=["-> other::f"], other__f=["-> other::f"])
        self.assertRaises(stack.Unknown, archive.deepest, "top")

    def test_functions_outside_are_known(self):
        self.assertEqual(self.size(top=["-> memset"]), 8)
        self.assertRaises(stack.Unknown, listed, top=["-> malloc"])

    def test_entries_are_called_by_nothing(self):
        self.assertEqual(listed(one=["-> f"], other=["-> f"], f=[]).entries(), ["one", "other"])


if __name__ == "__main__":
    unittest.main()
