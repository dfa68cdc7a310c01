"""What a browser prints: codes that a phone scans, and pages for a file with the style in them."""

from radacctd_site.core import web


def qr(text, border=1):
    """A picture (SVG) of a text for a phone, which reads it from a dark page if the border is 4."""
    import segno
    return segno.make(text, micro=False).svg_inline(border=border, light="#fff", omitsize=True,
                                                    svgclass=None, lineclass=None)


def page(template, values):
    """A page for a file, in English."""
    return web.environment("en").get_template(template).render(
        base="core/paper.html", language="en", house=web.house(), **values)
