; refused: target
; line: 1
target triple = "x86_64-unknown-linux-gnu"

define internal noundef i64 @"planted::sum"(ptr noundef %a0, i64 noundef %a1) #0 {
start:
  %r0 = load i64, ptr %a0, align 8
  %r1 = add nuw i64 %r0, %a1
  ret i64 %r1
}

attributes #0 = { nounwind "probe-stack"="inline-asm" "stack-probe-size"="3072" "target-cpu"="x86-64-v2" }
