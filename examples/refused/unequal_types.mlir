// The operand has 4 cells, the type of the sum 8.
func.func @f(%a : tensor<4xi32>) -> tensor<8xi32> {
  %c = arith.addi %a, %a : tensor<8xi32>
  return %c : tensor<8xi32>
}
