//! The script for Yosys.

/// Synthesises without flattening, writes the netlist, which the testbench takes in the place of the modules, and tells the cells of each
/// component.
pub fn script(name: &str) -> String {
    format!(
        "# In the folder of {name}.v, 'yosys {name}.ys' writes {name}_netlist.v and prints the cells of each\n\
         # component, which {name}_cells.txt has too.\n\
         read_verilog {name}.v\n\
         hierarchy -check -top {name}_top\n\
         # without -flatten: a component stays a module of its own\n\
         synth -top {name}_top\n\
         check -assert\n\
         write_verilog -noattr {name}_netlist.v\n\
         tee -o {name}_cells.txt stat\n"
    )
}
