// Nothing defines the value %b.
func.func @f(%a : tensor<4xi32>) -> tensor<4xi32> {
  %c = arith.addi %a, %b : tensor<4xi32>
  return %c : tensor<4xi32>
}
