; accepted: the first of 8 bytes is read, and what follows them is copied
target datalayout = "e-m:e-p270:32:32-p271:32:32-p272:64:64-i64:64-i128:128-f80:128-n8:16:32:64-S128"
target triple = "x86_64-unknown-linux-gnu"

define internal noundef i8 @"planted::overlap"(ptr noundef %a0) #0 {
start:
  %r0 = alloca [16 x i8], align 8
  %r1 = load i8, ptr %a0, align 1
  %r2 = zext i8 %r1 to i64
  store i64 %r2, ptr %r0, align 1
  %r3 = getelementptr i8, ptr %r0, i64 8
  %r4 = getelementptr i8, ptr %a0, i64 8
  call void @llvm.memmove.p0.p0.i64(ptr %r3, ptr %r4, i64 8, i1 false)
  %r5 = load i8, ptr %r0, align 1
  ret i8 %r5
}

declare void @llvm.memmove.p0.p0.i64(ptr writeonly captures(none), ptr readonly captures(none), i64, i1 immarg) #1

attributes #0 = { nounwind "probe-stack"="inline-asm" "stack-probe-size"="3072" "target-cpu"="x86-64-v2" }
attributes #1 = { nocallback nofree nounwind willreturn memory(argmem: readwrite) }
