; accepted: a function copies 16 bytes, which are a slice for its caller
target datalayout = "e-m:e-p270:32:32-p271:32:32-p272:64:64-i64:64-i128:128-f80:128-n8:16:32:64-S128"
target triple = "x86_64-unknown-linux-gnu"

define internal void @"planted::copy"(ptr noundef %a0, ptr noundef %a1) #0 {
start:
  %r0 = alloca [16 x i8], align 8
  call void @llvm.memmove.p0.p0.i64(ptr %r0, ptr %a1, i64 16, i1 false)
  call void @llvm.memmove.p0.p0.i64(ptr %a0, ptr %r0, i64 16, i1 false)
  ret void
}

define internal noundef i64 @"planted::copies"(ptr noundef %a0) #0 {
start:
  %r1 = alloca [16 x i8], align 8
  %r2 = alloca [16 x i8], align 8
  store ptr %a0, ptr %r1, align 8
  call void @"planted::copy"(ptr %r2, ptr %r1)
  %r3 = getelementptr i8, ptr %r2, i64 8
  %r4 = load i64, ptr %r3, align 8
  ret i64 %r4
}

declare void @llvm.memmove.p0.p0.i64(ptr writeonly captures(none), ptr readonly captures(none), i64, i1 immarg) #1

attributes #0 = { nounwind "probe-stack"="inline-asm" "stack-probe-size"="3072" "target-cpu"="x86-64-v2" }
attributes #1 = { nocallback nofree nounwind willreturn memory(argmem: readwrite) }
