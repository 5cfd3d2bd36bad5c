; A library as the kit lowers one for x86-64, but small: it takes a block, and answers what 128-bit numbers multiply to.
target datalayout = "e-m:e-p270:32:32-p271:32:32-p272:64:64-i64:64-i128:128-f80:128-n8:16:32:64-S128"
target triple = "x86_64-unknown-linux-gnu"

declare { i64, i64 } @rattle_alloc(i64 noundef, i64 noundef) #1

define i32 @sigma_page(i64 %given) #0 {
  %block = call { i64, i64 } @rattle_alloc(i64 40, i64 8)
  %found = extractvalue { i64, i64 } %block, 0
  %long = zext i64 %given to i128
  %square = mul i128 %long, %long
  %short = trunc i128 %square to i32
  %also = trunc i64 %found to i32
  %sum = add i32 %short, %also
  ret i32 %sum
}

attributes #0 = { nounwind "probe-stack"="inline-asm" "stack-probe-size"="3072" "target-cpu"="x86-64" }
attributes #1 = { nounwind }
