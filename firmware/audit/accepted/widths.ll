; accepted: arithmetic, comparisons and casts of every width
target datalayout = "e-m:e-p270:32:32-p271:32:32-p272:64:64-i64:64-i128:128-f80:128-n8:16:32:64-S128"
target triple = "x86_64-unknown-linux-gnu"

define internal noundef i8 @"planted::widths"(i8 noundef %a0, i16 noundef %a1, i32 noundef %a2, i64 noundef %a3) #0 {
start:
  %r0 = mul nuw i8 %a0, 3
  %r1 = sub nuw nsw i16 -1, %a1
  %r2 = urem i32 %a2, 10
  %r3 = lshr i64 %a3, 4
  %r4 = shl i32 1, %r2
  %r5 = and i16 %r1, 255
  %r6 = sext i16 %r5 to i32
  %r7 = xor i32 %r4, %r6
  %r8 = icmp sle i32 %r7, -5
  %r9 = zext i1 %r8 to i64
  %r10 = or i64 %r9, %r3
  %r11 = trunc nuw nsw i64 %r10 to i8
  %r12 = add nsw i8 %r11, %r0
  ret i8 %r12
}

attributes #0 = { nounwind "probe-stack"="inline-asm" "stack-probe-size"="3072" "target-cpu"="x86-64-v2" }
