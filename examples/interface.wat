;; An interface: a type of instances, imported and exported under the interface's name.
(component
  (type $store (instance
    (type $fault (variant (case "no-such-key") (case "other" string)))
    (export "fault" (type $error (eq $fault)))
    (export "get" (func (param "key" string) (result (result (option (list u8)) (error $error)))))
    (export "set" (func (param "key" string) (param "value" (list u8)) (result (result (error $error)))))))
  (import (interface "example:keys/store@1.0.0") (instance $s (type $store)))
  (export (interface "example:keys/store@1.0.0") (instance $s)))
