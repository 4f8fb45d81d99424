// Times gemmi's reading of a text that is in memory: `gemmi-time FILE` reads the file, and answers each line on standard
// input with the nanoseconds of one reading, from the text to the structure. The comparison asks it in turn with the others.
#include <chrono>
#include <fstream>
#include <iostream>
#include <sstream>
#include <string>

#include <gemmi/cif.hpp>    // the parser
#include <gemmi/mmcif.hpp>  // the structure of a parsed block

int main(int count, char** arguments) {
  if (count != 2)
    return 2;
  std::ifstream file(arguments[1]);
  std::stringstream text;
  text << file.rdbuf();
  const std::string whole = text.str();
  for (std::string line; std::getline(std::cin, line);) {
    const auto began = std::chrono::steady_clock::now();
    const gemmi::cif::Document document = gemmi::cif::read_memory(whole.data(), whole.size(), "text");
    const gemmi::Structure structure = gemmi::make_structure_from_block(document.blocks.at(0));
    const auto took = std::chrono::steady_clock::now() - began;
    if (structure.models.empty())
      return 1;
    std::cout << std::chrono::duration_cast<std::chrono::nanoseconds>(took).count() << std::endl;
  }
}
