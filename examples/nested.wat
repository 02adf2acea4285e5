;; Components in components: a name that leads out of its component becomes an outer alias in front of its use.
(component $drawing
  (type $point (record (field "x" s32) (field "y" s32)))
  (component $shapes
    (type $line (tuple $point $point))
    (component $canvas
      (import "line" (func (param "at" $line) (param "label" (option string))))
      (import "dot" (func (param "at" $point))))
    (alias outer $drawing $point (type $corner))
    (type $box (record (field "low" $corner) (field "high" $corner)))
    (export "canvas" (component $canvas)))
  (export "shapes" (component $shapes)))
