fn f(x: bool) {
    match x {
        _ => {
b'a'
b'\''
b'"'
b'\n'
b'\r'
b'\t'
b'\\'
b'\0'
b'\"'
b'\x00'
b'\x80'
b'\xFF'
b 'a
bb'a'
        }
    }
}
