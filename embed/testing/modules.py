"""What tools/retargeting.py makes of a module, and what it refuses."""
import sys

from bench import TOP, Failed, same

sys.path.insert(0, f"{TOP}/tools")
from retargeting import FILES, Refused, Target, rewritten  # noqa: E402

GIVEN = """; ModuleID = 'module.bc'
target datalayout = "e-m:e-i64:64-n8:16:32:64-S128"
target triple = "x86_64-unknown-linux-gnu"

@text = private constant [23 x i8] c"asm @llvm.x86.sse2 close"

define i32 @c8_tick(ptr %0, i16 %1) #0 {
  %2 = call i32 @close(i32 1)
  ret i32 %2
}
define dso_local i8 @c8_sender(ptr %0) #0 {
define zeroext i1 @c8_is_over(ptr %0) #0 {
define internal i8 @"c8_peer::close"(ptr %0) #0 {
declare i32 @close(i32) #1
declare { i64, i64 } @rattle_alloc(i64, i64) #1
declare void @llvm.memcpy.p0.p0.i64(ptr, ptr, i64, i1) #1

attributes #0 = { nounwind "frame-pointer"="non-leaf" "probe-stack"="inline-asm" "target-cpu"="x86-64-v2" }
attributes #1 = { nounwind "target-cpu"="x86-64-v2" }
"""
MADE = """; ModuleID = 'module.bc'
target triple = "aarch64-w64-windows-gnu"

@text = private constant [23 x i8] c"asm @llvm.x86.sse2 close"

define i32 @c8_tick(ptr %0, i16 %1) #0 {
  %2 = call i32 @c8os_close(i32 1)
  ret i32 %2
}
define dso_local zeroext i8 @c8_sender(ptr %0) #0 {
define zeroext i1 @c8_is_over(ptr %0) #0 {
define internal i8 @"c8_peer::close"(ptr %0) #0 {
declare i32 @c8os_close(i32) #1
declare { i64, i64 } @rattle_alloc(i64, i64) #1
declare void @llvm.memcpy.p0.p0.i64(ptr, ptr, i64, i1) #1

attributes #0 = { nounwind "frame-pointer"="non-leaf" uwtable }
attributes #1 = { nounwind }
"""
TARGET = Target("aarch64-w64-windows-gnu", lost=("probe-stack", "target-cpu"), added="uwtable", renamed=FILES)
# Each line makes the module one for a single system, or one that nobody can link.
WRONG = ('  call void asm sideeffect "cpuid", ""()\n', 'module asm "nop"\n', "declare <4 x i32> @llvm.x86.sha256rnds2(<4 x i32>)\n",
         "define void @c8_open(ptr byval(i64) %0) {\n", "declare void @f(ptr sret(i64))\n", "@place = thread_local global i32 0\n",
         "declare i32 @open(ptr, i32)\n", 'target triple = "x86_64-unknown-linux-gnu"\n')


def modules(_):
    same("a module", rewritten(GIVEN, TARGET), (MADE, ["c8_is_over", "c8_sender", "c8_tick"]))
    wide = rewritten(GIVEN, Target("wasm64-unknown-unknown", layout="e-m:e"))[0]
    if 'target datalayout = "e-m:e"\n' not in wide or "@close(" not in wide:
        raise Failed(f"another target: {wide}")
    for line in WRONG:
        try:
            rewritten(GIVEN + line, TARGET)
        except Refused:
            continue
        raise Failed(f"a module is accepted with the line {line}")
    return ""
