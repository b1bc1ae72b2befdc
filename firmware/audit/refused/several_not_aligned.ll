; refused: alignment
; line: 12
target datalayout = "e-m:e-p270:32:32-p271:32:32-p272:64:64-i64:64-i128:128-f80:128-n8:16:32:64-S128"
target triple = "x86_64-unknown-linux-gnu"

define internal noundef { i8, i64 } @"planted::several"(i64 noundef %a0) #0 {
start:
  %r0 = alloca [16 x i8], align 8
  store i8 1, ptr %r0, align 1
  %r1 = getelementptr i8, ptr %r0, i64 8
  store i64 %a0, ptr %r1, align 8
  %r9 = load { i8, i16 }, ptr %r0, align 8
  %r2 = load { i8, i64 }, ptr %r0, align 8
  ret { i8, i64 } %r2
}

define internal noundef i64 @"planted::second"(i64 noundef %a0) #0 {
start:
  %r0 = call { i8, i64 } @"planted::several"(i64 %a0)
  %r1 = extractvalue { i8, i64 } %r0, 1
  ret i64 %r1
}

attributes #0 = { nounwind "probe-stack"="inline-asm" "stack-probe-size"="3072" "target-cpu"="x86-64-v2" }
