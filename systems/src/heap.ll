; The heap of the proved code, over the C library's: in the module, because on Windows a C function returns two words by
; another convention than the module expects. PAIR is the module's type of two words. `noinline`: inlined, LLVM replaces
; some of these calls by calls of calloc, and drops others. A call that gets no memory, and one of no bytes, returns as
; those of c/heap.c.
@nothing.block = internal global [16 x i8] zeroinitializer, align 16
declare ptr @malloc(i64)
declare ptr @realloc(ptr, i64)
declare void @free(ptr)

define internal PAIR @tried(ptr %at) alwaysinline nounwind {
  %none = icmp eq ptr %at, null
  %ok = select i1 %none, i64 0, i64 1
  %to = select i1 %none, ptr @nothing.block, ptr %at
  %address = ptrtoint ptr %to to i64
  %one = insertvalue PAIR poison, i64 %ok, 0
  %both = insertvalue PAIR %one, i64 %address, 1
  ret PAIR %both
}

define internal PAIR @rattle_alloc(i64 %size, i64 %align) noinline nounwind {
  %no = icmp eq i64 %size, 0
  %n = select i1 %no, i64 %align, i64 %size
  %at = call ptr @malloc(i64 %n)
  %got = call PAIR @tried(ptr %at)
  ret PAIR %got
}

define internal PAIR @rattle_realloc(ptr %old, i64 %kept, i64 %size, i64 %align) noinline nounwind {
  %no = icmp eq i64 %size, 0
  %n = select i1 %no, i64 %align, i64 %size
  %at = call ptr @realloc(ptr %old, i64 %n)
  %got = call PAIR @tried(ptr %at)
  ret PAIR %got
}

define internal void @rattle_dealloc(ptr %at) noinline nounwind {
  call void @free(ptr %at)
  ret void
}
