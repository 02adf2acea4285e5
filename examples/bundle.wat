;; An instance of a component, with an argument that is an instance of items at hand.
(component
  (import "clock" (func $now (result u64)))
  (import "noise" (func $noise (param "bytes" u32) (result (list u8))))
  (component $dice
    (import "host" (instance $host
      (export "now" (func (result u64)))
      (export "noise" (func (param "bytes" u32) (result (list u8))))))
    (export "seed" (func $host "noise"))
    (export "age" (func $host "now")))
  (instance $d (instantiate $dice
    (with "host" (instance
      (export "now" (func $now))
      (export "noise" (func $noise))))))
  (export "seed" (func $d "seed")))
