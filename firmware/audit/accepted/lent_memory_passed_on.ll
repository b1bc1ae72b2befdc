; accepted: lent memory is passed on, for a parameter that leads to numbers alone
target datalayout = "e-m:e-p270:32:32-p271:32:32-p272:64:64-i64:64-i128:128-f80:128-n8:16:32:64-S128"
target triple = "x86_64-unknown-linux-gnu"

define internal noundef i64 @"planted::reads"(ptr noundef %a0) #0 {
start:
  %r0 = alloca ptr, align 8
  store ptr %a0, ptr %r0, align 8
  %r1 = load ptr, ptr %r0, align 8
  %r9 = call i64 @"planted::reads"(ptr %r1)
  %r2 = load i64, ptr %r1, align 8
  ret i64 %r2
}

define internal noundef i64 @"planted::lends"(ptr noundef %a0, i64 noundef %a1) #0 {
start:
  %r0 = alloca [16 x i8], align 8
  %r1 = alloca ptr, align 8
  %r2 = alloca [8 x i8], align 8
  store i64 1, ptr %r0, align 8
  store ptr %r2, ptr %r1, align 8
  %r3 = getelementptr i8, ptr %r2, i64 %a1
  %r4 = call i64 @"planted::reads"(ptr %r0)
  ret i64 %r4
}

attributes #0 = { nounwind "probe-stack"="inline-asm" "stack-probe-size"="3072" "target-cpu"="x86-64-v2" }
