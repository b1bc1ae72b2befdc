; accepted: numbers of two widths at one varying place of an array
target datalayout = "e-m:e-p270:32:32-p271:32:32-p272:64:64-i64:64-i128:128-f80:128-n8:16:32:64-S128"
target triple = "x86_64-unknown-linux-gnu"

define internal noundef i16 @"planted::fill"(ptr noundef %a0) #0 {
start:
  %r0 = alloca [32 x i8], align 8
  %r1 = alloca i64, align 8
  store i64 0, ptr %r1, align 8
  br label %repeat.1

repeat.1:                                         ; preds = %repeat.1, %start
  %r2 = load i64, ptr %r1, align 8
  %r3 = getelementptr i8, ptr %r0, i64 %r2
  store i16 0, ptr %r3, align 2
  %r4 = add i64 %r2, 2
  store i64 %r4, ptr %r1, align 8
  %r5 = icmp eq i64 %r4, 32
  br i1 %r5, label %filled.2, label %repeat.1

filled.2:                                         ; preds = %repeat.1
  %r6 = load i16, ptr %r3, align 2
  %r7 = load i32, ptr %r3, align 4
  ret i16 %r6
}

attributes #0 = { nounwind "probe-stack"="inline-asm" "stack-probe-size"="3072" "target-cpu"="x86-64-v2" }
