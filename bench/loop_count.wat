;; The loop of loop_count.lua: @N turns. Like a compiler's code, it tests the number of turns once before the loop and then at its end.
(module
  (func (export "count") (result i64)
    (local $r0 i64) (local $r1 i64) (local $r2 i64)
    (local.set $r0 (i64.const @N))
    (local.set $r1 (i64.const 1))
    (if (i64.ne (local.get $r0) (i64.const 0))
      (then
        (loop $turn
          (local.set $r2 (i64.add (local.get $r2) (local.get $r0)))
          (br_if $turn (i64.ne (local.tee $r0 (i64.sub (local.get $r0) (local.get $r1))) (i64.const 0))))))
    (local.get $r2)))
