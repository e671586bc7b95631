; The three calls by which the module takes memory, over those of memory.c, for each system. They give back 16 bytes: whether memory was
; found, and where, never null. The module expects them in two registers, which C gives on most systems, but not on Windows for x86-64.
; LLVM does it alike everywhere.

@nothing = internal global i128 0

declare ptr @c8os_take(i64)
declare ptr @c8os_again(ptr, i64)
declare void @c8os_give(ptr)

define internal { i64, i64 } @answer(ptr %p) nounwind uwtable {
  %failed = icmp eq ptr %p, null
  %ok = select i1 %failed, i64 0, i64 1
  %block = select i1 %failed, ptr @nothing, ptr %p
  %at = ptrtoint ptr %block to i64
  %half = insertvalue { i64, i64 } poison, i64 %ok, 0
  %both = insertvalue { i64, i64 } %half, i64 %at, 1
  ret { i64, i64 } %both
}

define hidden { i64, i64 } @rattle_alloc(i64 %size, i64 %align) nounwind uwtable {
  %none = icmp eq i64 %size, 0
  %asked = select i1 %none, i64 %align, i64 %size
  %p = call ptr @c8os_take(i64 %asked)
  %r = call { i64, i64 } @answer(ptr %p)
  ret { i64, i64 } %r
}

define hidden { i64, i64 } @rattle_realloc(ptr %old, i64 %kept, i64 %size, i64 %align) nounwind uwtable {
  %none = icmp eq i64 %size, 0
  %asked = select i1 %none, i64 %align, i64 %size
  %p = call ptr @c8os_again(ptr %old, i64 %asked)
  %r = call { i64, i64 } @answer(ptr %p)
  ret { i64, i64 } %r
}

define hidden void @rattle_dealloc(ptr %old) nounwind uwtable {
  call void @c8os_give(ptr %old)
  ret void
}
