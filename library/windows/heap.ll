; The kit's three functions of the heap, for Windows. The compiled module takes a flag and a pointer from them, in
; the registers rax and rdx. C's convention on Windows has no answer of two registers, so this is not C.
target datalayout = "e-m:w-p270:32:32-p271:32:32-p272:64:64-i64:64-i128:128-f80:128-n8:16:32:64-S128"
target triple = "x86_64-w64-windows-gnu"

; What the pointer is where there is no memory: it has to be none that is NULL.
@nothing = internal global [16 x i8] zeroinitializer, align 16

declare ptr @malloc(i64)
declare ptr @realloc(ptr, i64)
declare void @free(ptr)

; The answer for what malloc or realloc returned: 1 and the pointer, or 0 and a pointer to nothing.
define internal { i64, i64 } @answer(ptr %block) nounwind {
  %is_some = icmp ne ptr %block, null
  %flag = zext i1 %is_some to i64
  %pointer = select i1 %is_some, ptr %block, ptr @nothing
  %address = ptrtoint ptr %pointer to i64
  %first = insertvalue { i64, i64 } poison, i64 %flag, 0
  %both = insertvalue { i64, i64 } %first, i64 %address, 1
  ret { i64, i64 } %both
}

; How much is asked for: for no bytes as many as the alignment, since malloc may return NULL then.
define internal i64 @asked(i64 %bytes, i64 %alignment) nounwind {
  %is_none = icmp eq i64 %bytes, 0
  %asked = select i1 %is_none, i64 %alignment, i64 %bytes
  ret i64 %asked
}

define { i64, i64 } @rattle_alloc(i64 %bytes, i64 %alignment) nounwind {
  %asked = call i64 @asked(i64 %bytes, i64 %alignment)
  %block = call ptr @malloc(i64 %asked)
  %answer = call { i64, i64 } @answer(ptr %block)
  ret { i64, i64 } %answer
}

define { i64, i64 } @rattle_realloc(ptr %old, i64 %kept, i64 %bytes, i64 %alignment) nounwind {
  %asked = call i64 @asked(i64 %bytes, i64 %alignment)
  %block = call ptr @realloc(ptr %old, i64 %asked)
  %answer = call { i64, i64 } @answer(ptr %block)
  ret { i64, i64 } %answer
}

define void @rattle_dealloc(ptr %block) nounwind {
  call void @free(ptr %block)
  ret void
}
