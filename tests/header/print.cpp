// Prints the network of a ground record as `drain` prints it, with nothing but the functions of the header: the text is held to the stored
// one.
// usage: print FILE
#include "network_text.hpp"

int main(int count, char **words) {
  if (count != 2) return 2;
  const std::vector<std::uint8_t> ground = bytes_of(words[1]);
  const askvimur::Network network(ground);
  const auto &answer = network.answer();
  if (answer.accepted()) return answer.length() == network.record().size() && print_network(network, ground) ? 0 : 1;
  std::printf("refused %u %u\n", answer.number(), answer.place());
  return network.record().empty() && network.cells() == 0 ? 0 : 1;
}
