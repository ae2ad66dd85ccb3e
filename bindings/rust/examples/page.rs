//! Escapes the title of a page that a session holds.
use tera_values::{Session, Value};

fn main() -> Result<(), Box<dyn std::error::Error>> {
    let mut session = Session::new()?;
    let (title, ports) = (Value::from("<b>A & B</b>"), Value::from([80, 443]));
    session.set("page", Value::map([("title", title), ("ports", ports)]))?;
    if let Some(title) = session.path("page", "title")? {
        println!("{}", tera_values::escape(&String::try_from(title)?)?);
    }
    Ok(())
}
