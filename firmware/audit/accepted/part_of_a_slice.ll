; accepted: a pointer is copied out of a slice
target datalayout = "e-m:e-p270:32:32-p271:32:32-p272:64:64-i64:64-i128:128-f80:128-n8:16:32:64-S128"
target triple = "x86_64-unknown-linux-gnu"

define internal noundef i64 @"planted::moved"(ptr noundef %a0) #0 {
start:
  %r0 = alloca [16 x i8], align 8
  %r1 = alloca [16 x i8], align 8
  store ptr %a0, ptr %r0, align 8
  %r2 = getelementptr i8, ptr %r0, i64 8
  store i64 1, ptr %r2, align 8
  call void @llvm.memmove.p0.p0.i64(ptr %r1, ptr %r0, i64 8, i1 false)
  %r3 = getelementptr i8, ptr %r1, i64 8
  %r4 = load i64, ptr %r3, align 8
  ret i64 %r4
}

declare void @llvm.memmove.p0.p0.i64(ptr writeonly captures(none), ptr readonly captures(none), i64, i1 immarg) #1

attributes #0 = { nounwind "probe-stack"="inline-asm" "stack-probe-size"="3072" "target-cpu"="x86-64-v2" }
attributes #1 = { nocallback nofree nounwind willreturn memory(argmem: readwrite) }
