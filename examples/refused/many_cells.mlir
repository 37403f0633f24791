// A tensor has at most 1,048,576 cells.
func.func @f(%a : tensor<1048577xi32>) {
  return
}
