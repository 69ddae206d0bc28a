"""How tools/check runs the check `stack`, and what is wrong that this has to find."""
from kinds import Kind, Wrong

# A program that takes its stack behind a branch, by a loop that overwrites r11.
LATE_STACK = """if (count > 99)
        __asm__ volatile("mov %rsp, %r11; sub $0x9000, %r11; 1: sub $0xc00, %rsp; movq $0, (%rsp);"
                         "cmp %r11, %rsp; jne 1b");"""

KIND = Kind(
    "stack_check",
    [],
    None,
    ["LOOP_CLI", "LOOP_STATION", "BENCH_PROGRAMS", "EXAMPLE_FILL"],
    "looks into the programs for functions that LLVM compiled wrongly",
    [
        Wrong(
            "a program with such a function",
            {"LOOP_CLI": LATE_STACK},
            says="main takes its stack only after",
        )
    ],
)
