; refused: pointer comparison
; line: 14
target datalayout = "e-m:e-p270:32:32-p271:32:32-p272:64:64-i64:64-i128:128-f80:128-n8:16:32:64-S128"
target triple = "x86_64-unknown-linux-gnu"

define internal noundef i64 @"planted::length"(ptr noundef %a0, i64 noundef %a1) #0 {
start:
  ret i64 %a1
}

define noundef i64 @planted_length(ptr noundef %a0, i64 noundef %a1) #0 {
start:
  %r0 = alloca [16 x i8], align 8
  %r1 = icmp ugt ptr %a0, null
  %r2 = zext i1 %r1 to i64
  %r3 = mul i64 %r2, 4096
  %r4 = getelementptr i8, ptr %a0, i64 %r3
  store ptr %r4, ptr %r0, align 8
  %r5 = getelementptr i8, ptr %r0, i64 8
  store i64 %a1, ptr %r5, align 8
  %r6 = load ptr, ptr %r0, align 1
  %r7 = getelementptr i8, ptr %r0, i64 8
  %r8 = load i64, ptr %r7, align 1
  %r9 = call i64 @"planted::length"(ptr %r6, i64 %r8)
  ret i64 %r9
}

attributes #0 = { nounwind "probe-stack"="inline-asm" "stack-probe-size"="3072" "target-cpu"="x86-64-v2" }
