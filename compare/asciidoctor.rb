# Asciidoctor's side of differences.txt: reads the record and prints it with that side made anew.
# The script `differences` calls it. A line is written without its opening bracket, the line of an
# anchor without its two, as the reader is lent it; of ⟨Kind text⟩, a token that the harness's plain
# lexer does not make by itself, Asciidoctor is given the text.
require 'asciidoctor'
require 'open3'

# Built by `run`, which `differences` has called.
HARNESS = File.join(__dir__, 'target/compare').freeze

KINDS = %i(specialcharacters quotes attributes replacements macros post_replacements callouts).freeze
STARTS = { 'N' => KINDS[0..5], 'V' => [KINDS[0], KINDS[6]] }.freeze

# What a block of a claim `on` is made of, below its attribute line.
BLOCKS = {
  'paragraph' => %w(text),
  'paragraph-with-a-mark' => ['text <1>'],
  'listing' => %w(---- code ----),
  'listing-with-a-mark' => ['----', 'code <1>', '----'],
  'literal-block' => %w(.... text ....),
  'verse' => %w(____ text ____),
  'passthrough-block' => %w(++++ text ++++),
  'highlighted-listing' => ['----', 'code <1>', '----'],
  'example' => %w(==== text ====),
  'admonition' => %w(==== text ====),
  'sidebar' => %w(**** text ****),
  'quote' => %w(____ text ____),
  'open-block' => %w(-- text --),
  'list' => ['* text'],
  'table' => ['|===', '|text', '|===']
}.freeze

# Keeps what each link, inline image and inline anchor was made of; of an anchor its id too.
class Seen < (Asciidoctor::Converter.for 'html5')
  register_for 'seen'
  class << self
    attr_accessor :nodes
  end

  def convert_inline_anchor node
    Seen.nodes << [node.text, node.attributes, node.type == :ref ? node.id : nil]
    super
  end

  def convert_inline_image node
    Seen.nodes << [nil, node.attributes]
    super
  end
end

# A highlighter that leaves the source as it is.
class Leaves < Asciidoctor::SyntaxHighlighter::Base
  register_for 'leaves'

  def highlight?
    true
  end

  def highlight _node, source, _lang, _opts
    source
  end
end

def quoted text
  %(`#{text}`)
end

def digits subs
  numbers = (subs || []).map {|sub| (at = KINDS.index sub) ? (at + 1).to_s : sub == :highlight ? 'h' : '?' }
  numbers.empty? ? '-' : numbers.join
end

# The attributes in words: those by number first.
def attributes_in_words attrs
  positional = attrs.select {|name, _| Integer === name }.sort.map {|at, value| "#{at}: #{value.nil? ? 'nothing' : (quoted value)}" }
  words = []
  words << "style #{quoted attrs['style']}" if attrs['style'] && attrs['style'] != attrs[1]
  words << "id #{quoted attrs['id']}" if attrs['id']
  words << "roles #{attrs['role'].split.map {|role| quoted role }.join ' '}" if attrs['role'] && !attrs['role'].empty?
  options = attrs.keys.grep(String).grep(/-option\z/).map {|name| quoted name.delete_suffix('-option') }
  words << "options #{options.join ' '}" unless options.empty?
  named = attrs.reject {|name, _| Integer === name || %w(style id role attribution citetitle language linenums default-alt imagesdir).include?(name) || name.end_with?('-option') }
  words += named.map {|name, value| "#{name} = #{quoted value}" }
  all = positional + words
  all.empty? ? 'nothing' : all.join('; ')
end

def block_line source, entry
  block = Asciidoctor.load("#{source}\ntext", safe: :safe).blocks[0]
  if block.nil?
    'an attribute line before no block'
  elsif block.source.start_with? '['
    entry == 'is' ? 'no' : 'no attribute line but text'
  elsif entry == 'is'
    'yes'
  else
    attributes_in_words block.attributes
  end
end

def link line
  html = Asciidoctor.convert("link:t[#{line}", safe: :safe, backend: 'seen', doctype: :inline)
  return 'no link' if Seen.nodes.empty?
  text, attrs = Seen.nodes[0]
  rest = html.sub(/.*<\/a>/m, '')
  "text #{quoted text}; #{attributes_in_words attrs}#{rest.empty? ? '' : "; then #{quoted rest}"}"
end

# What a line after `[[` is made of: the id, the reference text, what follows. The text is the one that
# a link to the anchor is given, before that text's own substitutions.
#
# As a whole line above a paragraph; nil if it is no anchor line. [nil, nil, ''] is one without an id.
def anchor_line line
  block = Asciidoctor.load("[[#{line}\ntext", safe: :safe).blocks[0]
  [block.id, block.attributes['reftext'], ''] if block.context == :paragraph && block.source == 'text'
end

# In a paragraph that begins with `before`, after which the two brackets stand: what is between that and
# the first anchor, then the anchor; nil if there is none.
def first_anchor line, before
  Seen.nodes = []
  document = Asciidoctor.load("#{before}[[#{line}", safe: :safe, backend: 'seen', doctype: :inline)
  html = document.convert
  text, _, id = Seen.nodes.find {|_, _, id| id }
  return nil unless id
  known = document.catalog[:refs][id]
  between, _, rest = html.partition %(<a id="#{id}"></a>)
  [(between.delete_prefix before), id, known ? known.text : text, rest]
end

def anchor_in_text line, before = 'x '
  between, *anchor = first_anchor line, before
  anchor if between == ''
end

# At the end of a heading, which Asciidoctor reads by a rule of its own; nil if it is no such anchor.
def anchor_of_heading line
  section = Asciidoctor.load("== x [[#{line}", safe: :safe).blocks[0]
  [section.id, section.attributes['reftext'], ''] if section.context == :section && section.title == 'x'
end

def anchor_in_words id, text, rest
  words = [id ? "id #{quoted id}" : 'an anchor line without an id']
  words << "text #{quoted text}" if text
  words << "then #{quoted rest}" unless rest.empty?
  words.join '; '
end

def block_anchor line
  anchor = anchor_line line
  return anchor_in_words(*anchor) if anchor
  words = 'no anchor line but text'
  words += ', and so is a heading below it' unless Asciidoctor.load("[[#{line}\n== text", safe: :safe).blocks[0].context == :section
  inside = anchor_in_text line, ''
  inside ? "#{words}; in the text an anchor: #{anchor_in_words(*inside)}" : words
end

def inline_anchor line
  between, *anchor = first_anchor line, 'x '
  words =
    case between
    when nil then 'no anchor'
    when '' then anchor_in_words(*anchor)
    else "no anchor but #{quoted between}, and behind it an anchor: #{anchor_in_words(*anchor)}"
    end
  heading = anchor_of_heading line
  heading && heading != anchor ? "#{words} (at the end of a heading: #{anchor_in_words(*heading)})" : words
end

# The subs of a block, and of what stands in it.
def block_subs name, line
  source = name == 'highlighted-listing' ? ":source-highlighter: leaves\n\n" : ''
  document = Asciidoctor.load("#{source}[#{line}\n#{BLOCKS[name].join "\n"}", safe: :safe)
  block = document.blocks[0]
  if block.context == :table
    "in a cell #{digits block.rows.body[0][0].subs}"
  elsif block.content_model == :compound || block.context == :ulist
    "inside it #{digits block.blocks[0].subs}"
  else
    digits block.subs
  end
end

PARAGRAPH = Asciidoctor.load('text').blocks[0]

def subs text
  letter, text = text.split(/ /, 2)
  digits PARAGRAPH.resolve_block_subs(text[1..-2], STARTS[letter], :paragraph)
end

# FNV-1a, as in src/explained.rs.
def digest
  sum = 0xcbf29ce484222325
  IO.popen([HARNESS, '--texts']).each_line(chomp: true) do |claim|
    "#{claim} #{subs claim}\n".each_byte {|byte| sum = ((sum ^ byte) * 0x100000001b3) & 0xffffffffffffffff }
    Asciidoctor::LoggerManager.logger.clear
  end
  sum.to_s(16).rjust 16, '0'
end

# ---- every line of up to so many pieces, put beside what the Rust gives for it

# The Rust's words taken apart: positional texts that are not empty, the id, roles, options (sorted),
# named attributes (the last of a name), what follows. Asciidoctor takes the backslash of an escaped
# bracket off before it reads a link; here it stays in the run, which counts as no difference.
def rust_answer entry, line, words
  return nil if words.start_with?('refused') || words.include?('closed by a token')
  return [[], nil, [], [], {}, line[1..]] if words.start_with? 'no row (1 '
  words, rest = words.split '; then `', 2
  words = words.gsub '\\]', ']' if %w(link inline).include? entry
  rows = words.split '; '
  named = rows.grep(/\Anamed/) {|row| row.match(/`(.*?)` = `(.*)`\z/).captures }
  id, = rows.grep(/\Aid `/) {|row| row[4..-2] }
  roles = rows.grep(/\Arole `/) {|row| row[6..-2] }
  options = rows.grep(/\Aoption `/) {|row| row[8..-2] }
  [rows.grep(/\Apositional `/) {|row| row[12..-2] }, id, roles, options.uniq.sort, named.to_h, rest ? rest.chop : '']
end

# What Asciidoctor makes of a line: its attributes, and what follows.
def asciidoctor_attributes entry, line
  case entry
  when 'block'
    block = Asciidoctor.load("[#{line}\ntext", safe: :safe).blocks[0]
    [block.attributes, ''] unless block.source.start_with? '['
  when 'macro'
    block = Asciidoctor.load("image::t[#{line}", safe: :safe).blocks[0]
    [block.attributes.reject {|name, _| SET_FOR_IMAGES.include? name }, ''] if block.context == :image
  else
    Seen.nodes = []
    html = Asciidoctor.convert("#{entry == 'link' ? 'link' : 'image'}:t[#{line}", safe: :safe, backend: 'seen', doctype: :inline)
    return nil if Seen.nodes.empty?
    text, attrs = Seen.nodes[0]
    attrs = { 1 => text }.merge attrs unless text.nil? || text == 't' || attrs.keys.any?(Integer)
    attrs = attrs.reject {|name, value| name == 'role' && value == 'bare' || entry == 'inline' && SET_FOR_IMAGES.include?(name) }
    [attrs, html.sub(entry == 'link' ? /.*<\/a>/m : /.*<\/span>/m, '')]
  end
end

SET_FOR_IMAGES = %w(alt default-alt width height target imagesdir attribute_entries).freeze

# The same pieces as in `rust_answer`.
def asciidoctor_answer entry, line
  attrs, rest = asciidoctor_attributes entry, line
  return nil unless attrs
  plain = ->(word) { word.gsub('&#8217;', "'") }
  numbered, named = attrs.partition {|name, _| Integer === name }
  options, named = named.partition {|name, _| name.end_with? '-option' }
  named = named.to_h {|name, value| [name, value && plain[value]] }
  id, role = (named.delete 'id'), (named.delete 'role')
  named.delete 'style'
  options = options.map {|name, _| name.delete_suffix '-option' }
  [numbered.sort.map(&:last).compact.map(&plain), id, (role || '').split, options.sort, named, plain[rest]]
end

# The classes of docs/DIFFERENCES.md that a link's line belongs to, by its text alone.
def link_classes line
  inside = line[0...(line.index(/(?<!\\)\]/) || line.size)]
  classes = []
  classes << 'L1' if inside.size > 1 && inside[0] == inside[-1] && %w(" ').include?(inside[0])
  classes << 'L3' if line =~ /(?<!\\)\[.*\]./
  classes << 'L6' if line.end_with? '\\]'
  return classes unless inside.include? '='
  classes << 'L2, L11' if inside =~ /["']/
  classes << 'L4' if inside =~ /[^\w=,\s"'\]]\w*\s*=/ || inside =~ /\[.*=/
  classes << 'L5' if inside.include? '=='
  classes << 'L10' if inside.include? '\\]'
  classes
end

# The same for the list of a block macro. A value in quotes that holds no quote, backslash or bracket
# is read alike, and stands as Q.
def macro_classes line
  inside = line.chop
  bare = without_quoted inside
  names = bare.split(',').filter_map {|attribute| attribute[/\A(.*?)=/, 1] }.map(&:strip)
  classes = []
  classes << 'B1 to B6, B14' if bare =~ /["']/
  classes << 'B7 to B9' if inside.include? ']'
  classes << 'B19' if names.count('id') > 1
  classes << 'B21' if inside =~ /id\s*=\s*(?:""|'')?\s*(?:,|\z)/
  classes << 'B22' if names.count('role') > 1
  classes << 'B23' if inside =~ /opts="[^"]* [^"]*"/
  classes << 'B24' if inside.include? 'None'
  classes << 'B25' if names.any? {|name| name !~ /\A\w[\w-]*\z/ }
  classes << 'B26' if inside.include? '=='
  classes
end

def without_quoted inside
  inside.gsub(/(?<=\A|,|=)(\s*)("[^"'\\\]]*"|'[^"'\\\]]*')(?=\s*(?:,|\z))/, '\1Q')
end

# The same for an inline macro, which ends at the first bracket that is not escaped.
def inline_classes line
  ends = line.index(/(?<!\\)\]/) || line.size
  inside = line[0...ends]
  classes = (macro_classes "#{inside}]") - ['B7 to B9']
  classes << 'I1' if inside.include?('\\]') && inside =~ /[,=]/
  classes << 'L6' if ends == line.size
  classes
end

# The same for a line above a block, which has shorthand too.
def block_classes line
  inside = line.chop
  first, *later = (without_quoted inside).split(',', -1)
  first = first.to_s
  classes = macro_classes line
  classes << 'B11' if later.any? {|attribute| attribute =~ /[.#%]/ }
  classes << 'B12' if first =~ /[.#%]/ && first.strip =~ /\s/
  classes << 'B13' if inside =~ /\A["'].*[.#%]/
  classes << 'B15, B16' if first =~ /[.#%][.#%]/
  classes << 'B19, B20' if first.count('#') > 1 || first.include?('#') && inside =~ /id\s*=/
  classes << 'B22' if first.include?('.') && inside =~ /role\s*=/
  classes << 'B32, B34' if inside !~ /\A[\w.#%{,"']/ && !inside.empty?
  classes << 'B33' if inside.end_with? '\\'
  classes
end

# The Rust's words for an anchor taken apart: the id, the reference text less a first token that counts
# as Discard, what follows.
def rust_anchor words
  return nil if words == 'no anchor' || words.start_with?('refused')
  id, text, discard, rest = words.match(/\Aid `(.*?)`(?:, text `(.*?)`)?( \(its first .*?\))?(?:; then `(.*)`)?\z/).captures
  [id, discard ? (text.sub(/\A[ \t]+/, '')) : text, rest || '']
end

ANCHOR_ID = /\A[\p{Alpha}_:][\p{Word}\-:.]*\z/.freeze

# The classes of an anchor's line, which stands after `[[`, by its text alone.
def anchor_classes entry, line
  whole = entry == 'block-anchor'
  return whole && line == ']]' ? ['T9'] : [] if line.start_with?(/[\s'"0-9,\]]/)
  id, closes, text = line.match(/\A((?:\{\w+\}|[^,\]])*)(.?)(.*)\z/).captures
  bracket, brackets = whole ? [/\]\z/, /\]\]\z/] : [/\]/, /\]\]/]
  classes = []
  classes << 'T1' if id !~ ANCHOR_ID
  classes << 'T2' if closes == ']' && text !~ /\A#{bracket}/
  classes << 'T3' if closes == ',' && text =~ /\A#{brackets}/
  classes << 'T4' if closes == ',' && text =~ /\A +#{brackets}/
  classes << 'T5' if closes == ',' && text =~ /\A *\t/
  classes << 'T6' if closes == ',' && text =~ /\A[^\]]*\][^\]]/ && !whole
  classes << 'T7' if line =~ /--|\.\.\.|_.*_/ && !whole
  classes << 'T8' if line.include? '{'
  classes << 'T11' if closes == ',' && text =~ /\].*\]\]/ && !whole
  classes
end

def classes_of entry, line
  entry.end_with?('anchor') ? (anchor_classes entry, line) : (send "#{entry}_classes", line)
end

# Does Asciidoctor read the line otherwise than the Rust's words say? A line inside a text is put in a
# paragraph and at the end of a heading; an apostrophe that is set as one counts as no difference.
def differs entry, line, words
  return (rust_answer entry, line, words) != (asciidoctor_answer entry, line) unless entry.end_with? 'anchor'
  found = entry == 'block-anchor' ? [anchor_line(line)] : [anchor_in_text(line), *[anchor_of_heading(line)].compact]
  found.any? {|anchor| anchor&.map {|part| part&.gsub '&#8217;', "'" } != (rust_anchor words) }
end

# Of every such line: how many differ, whether each of these is of a class, and how many are of none.
def searched text
  entry, longest, *pieces = text.split(/ /)
  pieces = pieces.map {|piece| piece.tr('␣', ' ').gsub '<TAB>', "\t" }
  lines = (0..longest.to_i).flat_map {|size| size == 0 ? [''] : pieces.product(*[pieces] * (size - 1)).map(&:join) }.map {|line| "#{line}]" }
  rust, = Open3.capture2 HARNESS, '--lines', entry, stdin_data: lines.join("\n")
  differ = lines.zip(rust.lines chomp: true).select {|line, words| differs entry, line, words }
  plain = lines.select {|line| (classes_of entry, line).empty? }
  none = differ.map(&:first) & plain
  Asciidoctor::LoggerManager.logger.clear
  return "of no class and different: #{none.size}, #{none.first(12).join '  '}" unless none.empty?
  "#{differ.size} differ, each of a class; #{plain.size} lines are of none"
end

def asciidoctor entry, text
  logger = Asciidoctor::LoggerManager.logger = Asciidoctor::MemoryLogger.new
  Seen.nodes = []
  line = text.gsub('<TAB>', "\t").gsub(/⟨\w+ (.*?)⟩/, '\1')
  words =
    case entry
    when 'is' then block_line line, entry
    when 'block' then block_line "[#{line}", entry
    when 'macro' then attributes_in_words Asciidoctor.load("image::t[#{line}", safe: :safe).blocks[0].attributes
    when 'inline'
      Asciidoctor.convert("x image:t[#{line} y", safe: :safe, backend: 'seen')
      Seen.nodes.empty? ? 'no macro' : (attributes_in_words Seen.nodes[0][1])
    when 'link' then link line
    when 'block-anchor' then block_anchor line
    when 'inline-anchor' then inline_anchor line
    when 'subs' then subs line
    when 'on' then block_subs(*line.split(/ /, 2))
    when 'texts' then digest
    when 'lines' then searched text
    else abort "differences: no such claim: #{entry} #{text}"
    end
  warnings = logger.messages.map {|message| Hash === message[:message] ? message[:message][:text] : message[:message].to_s }
  words += " (warns: #{warnings.uniq.join ', '})" unless warnings.empty?
  words
end

if $0 == __FILE__
  $stdin.set_encoding 'UTF-8'
  $stdout.set_encoding 'UTF-8'
  $stdin.gets
  puts "Asciidoctor #{Asciidoctor::VERSION} and the Rust of asciidork-parser 0.38.2 (release build)"
  claims = $stdin.read.lines(chomp: true).slice_before {|line| !line.start_with? '    ' }
  claims.each do |head, *sides|
    _, entry, text = head.split(/ /, 3)
    puts head, sides.reject {|side| side.start_with? '    Asciidoctor ' }
    puts "    Asciidoctor  #{asciidoctor entry, text}"
  end
end
