;; What an import holds is named by a path: `$host "io" "print"` is the export `print` of the export `io` of the import.
(component $paths
  (import "host" (instance $host
    (export "io" (instance
      (export "print" (func (param "line" string)))))
    (export "arguments" (func (result (list string))))))
  (export "print" (func $host "io" "print"))
  (export "arguments" (func $host "arguments") (func (result (list string)))))
