// There is no such operation.
func.func @f(%a : tensor<4xi32>) -> tensor<4xi32> {
  %b = arith.power %a, %a : tensor<4xi32>
  return %b : tensor<4xi32>
}
