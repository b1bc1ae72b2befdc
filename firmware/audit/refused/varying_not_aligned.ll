; refused: alignment
; line: 10
target datalayout = "e-m:e-p270:32:32-p271:32:32-p272:64:64-i64:64-i128:128-f80:128-n8:16:32:64-S128"
target triple = "x86_64-unknown-linux-gnu"

define internal noundef i16 @"planted::varying"(i64 noundef %a0) #0 {
start:
  %r0 = alloca [32 x i8], align 2
  %r1 = getelementptr i8, ptr %r0, i64 %a0
  store i32 0, ptr %r1, align 4
  %r2 = load i16, ptr %r1, align 2
  ret i16 %r2
}

attributes #0 = { nounwind "probe-stack"="inline-asm" "stack-probe-size"="3072" "target-cpu"="x86-64-v2" }
