//! Listings: their exact form, and that they are read back as the same tree.

use refal0_apart::listing::list;
use refal0_apart::reader::read;

fn check(table: &str, listing: &str) {
    let tree = read(table.as_bytes()).expect("the table is accepted");
    let found = list(&tree);
    assert_eq!(String::from_utf8_lossy(&found), listing);
    assert_eq!(read(&found).as_ref(), Ok(&tree));
}

#[test]
fn form_of_a_line() {
    check("", "");
    check("F{=}", "F {\n=;\n}\n");
    check("F{=};G{='';}", "F {\n=;\n}\nG {\n=;\n}\n");
    check("F{e1='a'<F>'b'e1}", "F {\ne1 = 'a' <F> 'b' e1;\n}\n");
    check("F{=<F<EmitA<F'a'>>>}", "F {\n= <F <EmitA <F 'a'>>>;\n}\n");
    check("F{'a' '' 'b' s1 'c'=}", "F {\n'ab' s1 'c' =;\n}\n");
    check("F{=<F'a'>'b'}", "F {\n= <F 'a'> 'b';\n}\n");
    check(
        "F{e1 s2 e3,<IsDigit s2>:'T',<IsBlank s2>:'F'=s2}",
        "F {\ne1 s2 e3, <IsDigit s2>: 'T', <IsBlank s2>: 'F' = s2;\n}\n",
    );
    check(
        "F{e1'a'e2,<IsDigit e2>:'T',<IsUpper e1>:'F'=}",
        "F {\ne1 'a' e2, <IsDigit e2>: 'T', <IsUpper e1>: 'F' =;\n}\n",
    );
}

#[test]
fn form_of_a_string() {
    check("F{='\\5' '7'}", "F {\n= '\\5\\55';\n}\n");
    check("F{='\\5' '78a9'}", "F {\n= '\\5\\55\\56a9';\n}\n");
    check("F{='\\n' '7\\t8'}", "F {\n= '\\n7\\t8';\n}\n");
    check("F{='\\'\\\"\\\\'}", "F {\n= '\\'\\\"\\\\';\n}\n");
    check("F{='\\0\\13\\31 ~\\127\\255'}", "F {\n= '\\0\\13\\31 ~\\127\\255';\n}\n");
    check("F{='\\2\n3\\10 4'}", "F {\n= '\\2\\n3\\n 4';\n}\n");
    check("F{='\\200' '' ''}", "F {\n= '\\200';\n}\n");
}
