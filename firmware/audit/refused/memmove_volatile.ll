; refused: memmove volatile
; line: 18
target datalayout = "e-m:e-p270:32:32-p271:32:32-p272:64:64-i64:64-i128:128-f80:128-n8:16:32:64-S128"
target triple = "x86_64-unknown-linux-gnu"

define internal noundef i16 @"planted::pointer"(ptr noundef %a0, i64 noundef %a1) #0 {
start:
  %r0 = alloca ptr, align 8
  %r1 = alloca i64, align 8
  %r2 = alloca [8 x i8], align 8
  store ptr %a0, ptr %r0, align 8
  store i64 %a1, ptr %r1, align 8
  %r3 = load ptr, ptr %r0, align 8
  %r4 = load i64, ptr %r1, align 8
  %r5 = getelementptr inbounds nuw i8, ptr %r3, i64 %r4
  %r6 = getelementptr i8, ptr %r5, i64 2
  %r7 = load i16, ptr %r6, align 2
  call void @llvm.memmove.p0.p0.i64(ptr %r2, ptr %r3, i64 8, i1 true)
  ret i16 %r7
}

declare void @llvm.memmove.p0.p0.i64(ptr writeonly captures(none), ptr readonly captures(none), i64, i1 immarg) #1

attributes #0 = { nounwind "probe-stack"="inline-asm" "stack-probe-size"="3072" "target-cpu"="x86-64-v2" }
attributes #1 = { nocallback nofree nounwind willreturn memory(argmem: readwrite) }
