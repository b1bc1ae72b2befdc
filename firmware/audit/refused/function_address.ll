; refused: pointer constant
; line: 20
target datalayout = "e-m:e-p270:32:32-p271:32:32-p272:64:64-i64:64-i128:128-f80:128-n8:16:32:64-S128"
target triple = "x86_64-unknown-linux-gnu"

define internal noundef i64 @"planted::reads"(ptr noundef %a0) #0 {
start:
  %r0 = load ptr, ptr %a0, align 8
  %r1 = getelementptr i8, ptr %a0, i64 8
  %r2 = load i64, ptr %r1, align 8
  ret i64 %r2
}

define internal noundef i64 @"planted::passes"() #0 {
start:
  %r0 = alloca [16 x i8], align 8
  %r1 = alloca ptr, align 8
  %r2 = getelementptr i8, ptr %r0, i64 8
  store i64 1, ptr %r2, align 8
  %r3 = call i64 @"planted::reads"(ptr @"planted::passes")
  ret i64 %r3
}

attributes #0 = { nounwind "probe-stack"="inline-asm" "stack-probe-size"="3072" "target-cpu"="x86-64-v2" }
