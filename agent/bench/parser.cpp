// LLVM's own reader of stack maps, as a host would use it: a walk over the whole section that reads every field.
// It checks nothing. The sum of all fields is returned, so that no read can be left out.

#include "llvm/Object/StackMapParser.h"

using Parser = llvm::StackMapParser<llvm::support::little>;

static uint64_t sum_of_location(const Parser::LocationAccessor &location) {
  uint64_t sum = uint64_t(location.getKind()) + location.getSizeInBytes() + location.getDwarfRegNum();
  switch (location.getKind()) {
  case Parser::LocationKind::Register:
    return sum;
  case Parser::LocationKind::Direct:
  case Parser::LocationKind::Indirect:
    return sum + uint64_t(int64_t(location.getOffset()));
  case Parser::LocationKind::Constant:
    return sum + location.getSmallConstant();
  case Parser::LocationKind::ConstantIndex:
    return sum + location.getConstantIndex();
  }
  return sum;
}

static uint64_t sum_of_record(const Parser::RecordAccessor &record) {
  uint64_t sum = record.getID() + record.getInstructionOffset() + record.getNumLocations() + record.getNumLiveOuts();
  for (const auto &location : record.locations())
    sum += sum_of_location(location);
  for (const auto &live_out : record.liveouts())
    sum += uint64_t(live_out.getDwarfRegNum()) + live_out.getSizeInBytes();
  return sum;
}

// The section must be one that the check accepts: the parser reads wherever the bytes send it.
extern "C" uint64_t parser_walk(const uint8_t *bytes, size_t length) {
  Parser parser(llvm::ArrayRef<uint8_t>(bytes, length));
  uint64_t sum = 0;
  for (const auto &function : parser.functions())
    sum += function.getFunctionAddress() + function.getStackSize() + function.getRecordCount();
  for (const auto &constant : parser.constants())
    sum += constant.getValue();
  for (const auto &record : parser.records())
    sum += sum_of_record(record);
  return sum;
}
