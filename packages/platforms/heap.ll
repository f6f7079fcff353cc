; The heap, as the kit's own C has it: what the LLVM code of the library asks for is asked of the C library. No bytes are asked for as as
; many as their alignment; a block is answered as 1 and its address, and a refused one as 0 and an address that is not null.
@refused = private constant i64 0, align 16

define internal { i64, i64 } @rattle_alloc(i64 %size, i64 %alignment) nounwind {
  %is_empty = icmp eq i64 %size, 0
  %asked = select i1 %is_empty, i64 %alignment, i64 %size
  %block = call ptr @malloc(i64 %asked) nobuiltin nounwind
  %answer = call { i64, i64 } @answered(ptr %block)
  ret { i64, i64 } %answer
}

define internal { i64, i64 } @rattle_realloc(ptr %old, i64 %old_size, i64 %size, i64 %alignment) nounwind {
  %is_empty = icmp eq i64 %size, 0
  %asked = select i1 %is_empty, i64 %alignment, i64 %size
  %block = call ptr @realloc(ptr %old, i64 %asked) nobuiltin nounwind
  %answer = call { i64, i64 } @answered(ptr %block)
  ret { i64, i64 } %answer
}

define internal void @rattle_dealloc(ptr %block) nounwind {
  call void @free(ptr %block) nobuiltin nounwind
  ret void
}

define private { i64, i64 } @answered(ptr %block) alwaysinline nounwind {
  %is_there = icmp ne ptr %block, null
  %said = zext i1 %is_there to i64
  %given = select i1 %is_there, ptr %block, ptr @refused
  %address = ptrtoint ptr %given to i64
  %half = insertvalue { i64, i64 } poison, i64 %said, 0
  %answer = insertvalue { i64, i64 } %half, i64 %address, 1
  ret { i64, i64 } %answer
}

declare ptr @malloc(i64) nounwind
declare ptr @realloc(ptr, i64) nounwind
declare void @free(ptr) nounwind
