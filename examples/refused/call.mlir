// Calls of functions are read, but not built yet.
func.func @g(%a : tensor<4xi32>) -> tensor<4xi32> {
  return %a : tensor<4xi32>
}
func.func @f(%a : tensor<4xi32>) -> tensor<4xi32> {
  %b = func.call @g(%a) : (tensor<4xi32>) -> tensor<4xi32>
  return %b : tensor<4xi32>
}
