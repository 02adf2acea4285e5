;; The type of a core module, an import of one of that type, and an instance of it with a memory of its own.
(component
  (core type $engine (module
    (type $step (func (param i32 i32) (result i32)))
    (import "host" "memory" (memory 1))
    (import "host" "log" (func (param i32 i32)))
    (export "step" (func (type $step)))
    (export "run" (func (param i32 i32) (result i32)))))
  (import "engine" (core module $m (type $engine)))
  (core module $host
    (memory (export "memory") 1)
    (func (export "log") (param i32 i32)))
  (core instance $h (instantiate $host))
  (core instance $e (instantiate $m (with "host" (instance $h))))
  (func (export "run") (param "at" u32) (param "size" u32) (result u32)
    (canon lift (core func $e "run"))))
