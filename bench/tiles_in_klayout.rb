# AND of two layers of a CIF text by KLayout's TilingProcessor, for bench/tiles:
# klayout -b -r bench/tiles_in_klayout.rb -rd input=FILE -rd output=FILE -rd tile=UNITS -rd threads=N
# writes the result, and prints its area in units of the text, of which one is 5 nm.
options = RBA::LoadLayoutOptions::new
options.cif_dbu = 0.005
layout = RBA::Layout::new
layout.read($input, options)
cell = layout.top_cell.cell_index
processor = RBA::TilingProcessor::new
processor.threads = $threads.to_i
processor.tile_size($tile.to_i * layout.dbu, $tile.to_i * layout.dbu)
processor.tile_origin(0.0, 0.0)
processor.dbu = layout.dbu
layout.layer_indexes.each { |index| processor.input(layout.get_info(index).name.downcase, layout, cell, index) }
result = RBA::Region::new
processor.output("result", result)
processor.queue("_output(result, a & b)")
processor.execute("AND by tiles")
written = RBA::Layout::new
written.dbu = layout.dbu
written.create_cell("TOP").shapes(written.layer(RBA::LayerInfo::new("Q"))).insert(result)
written.write($output)
puts result.area
