; refused: switch
; line: 11
target datalayout = "e-m:e-p270:32:32-p271:32:32-p272:64:64-i64:64-i128:128-f80:128-n8:16:32:64-S128"
target triple = "x86_64-unknown-linux-gnu"

define internal i64 @"planted::choice"(ptr %a0) #0 {
start:
  %r0 = alloca [16 x i8], align 8
  call void @llvm.memmove.p0.p0.i64(ptr %r0, ptr %a0, i64 16, i1 false)
  %r1 = load i8, ptr %r0, align 1, !noundef !2
  switch i8 1, label %noarm.3 [
    i8 0, label %arm.1
    i8 1, label %arm.2
  ]

arm.1:                                            ; preds = %start
  ret i64 0

arm.2:                                            ; preds = %start
  %r2 = getelementptr i8, ptr %r0, i64 8
  %r3 = load i64, ptr %r2, align 8, !noundef !2
  ret i64 %r3

noarm.3:                                          ; preds = %start
  unreachable
}

; Function Attrs: nocallback nofree nounwind willreturn memory(argmem: readwrite)
declare void @llvm.memmove.p0.p0.i64(ptr writeonly captures(none), ptr readonly captures(none), i64, i1 immarg) #1

attributes #0 = { nounwind "probe-stack"="inline-asm" "stack-probe-size"="3072" "target-cpu"="x86-64-v2" }
attributes #1 = { nocallback nofree nounwind willreturn memory(argmem: readwrite) }

!llvm.ident = !{!0}

!0 = !{!"planted"}
!2 = !{}
