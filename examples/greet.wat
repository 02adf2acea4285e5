;; A function of a core module, lifted: its strings go through the memory of that module.
(component $app
  (import "host" (instance $host
    (export "log" (func (param "msg" string)))))
  (core module $m
    (memory (export "mem") 1)
    (func (export "realloc") (param i32 i32 i32 i32) (result i32)
      i32.const 0)
    (func (export "greet") (param $p i32) (param i32) (result i32)
      local.get $p))
  (core instance $i (instantiate $m))
  (type $greet (func (param "name" string) (result string)))
  (func $g (type $greet)
    (canon lift (core func $i "greet")
      string-encoding=utf8
      (memory (core memory $i "mem"))
      (realloc (core func $i "realloc"))))
  (export "greet" (func $g))
  (export "log" (func $host "log")))
