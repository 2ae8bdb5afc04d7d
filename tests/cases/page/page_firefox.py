"""The page in Firefox, where one is installed."""

from browser.firefox import Firefox
from browser.terminal import by_id
from kit.case import case
from kit.page_saw import shop_with_jobs

# By the address of each view, what it shows.
SHOWN = {
    "cut/STEEL": "wanted.textContent.includes('600.0') || wanted.textContent.includes('100.0')",
    "saw/3": "jobTitle.textContent.startsWith('Job 3') && document.querySelector('#jobPicture svg')",
    "order/A-1": "foundOrder.textContent.includes('A-1')",
    "cut": "planTitle.textContent.length > 4",
    "stock/STEEL": "stockList.textContent.includes('600.0')",
    "part/1/0": "tracePicture.querySelector('svg')",
    "batch/G-1": "document.getElementById('traceWords').textContent.includes('2/0')",
    "yield": "document.getElementById('yieldTable')",
    "happened": "happenedList.textContent.includes('A-1')",
}


@case(
    "the page in Firefox",
    "Firefox shows each view, in English and in German, at 1280 and at 500 pixels, without a message on its console, and nothing is "
    "scrolled sideways.",
)
def firefox(trial):
    shop, _, _ = shop_with_jobs(trial)
    address = f"http://127.0.0.1:{shop.port}/"
    for language in ("en", "de"):
        with Firefox(language) as it:
            it.go(address)
            it.value(f"void {by_id('terminalButton')}.click()")
            it.until(f"{by_id('terminalDialog')}.open && {by_id('terminalNumber')}.value")
            it.value(f"{by_id('terminalForm')}.querySelector('.act').click()")
            it.until(f"!{by_id('terminalDialog')}.open")
            for width in (1280, 500):
                it.size(width)
                for view, shown in SHOWN.items():
                    it.value(f"void (location.hash = '{view}')")
                    it.until(f"location.hash === '#{view}' && ({shown if language == 'en' else 'true'}) && !refresh.running")
                    trial.holds(it.value("document.documentElement.scrollWidth <= innerWidth"), f"{view} is wider than {width} in {language}")
            trial.equal(it.value("document.documentElement.lang"), language)
            trial.equal(it.console(address), [])
